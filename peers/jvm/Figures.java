import java.util.ArrayList;
import java.util.Arrays;
import java.util.List;
import java.util.Map;
import java.util.function.LongFunction;

/** How often a measurement is made, and the line that each figure has, as for Rust's peers. */
final class Figures {
    private static final int REPEATS = 5;
    private static final double REPEAT_SECONDS = 0.20;
    /** How long a measurement runs before it counts, so that the compiler has done its work. */
    private static final double WARM_SECONDS = 0.40;

    private Figures() {}

    /** What is measured: the first columns of a line. */
    record Figure(String peer, String scenario, String name, String unit) {}

    /** The results of the repeats, and the number of values that each had. */
    record Runs<R>(long count, List<R> results) {}

    /** Measures the scenarios that the command line names, and ends the program. A fault of any thread ends it, too. */
    static void main(String[] words, Map<String, Runnable> scenarios) {
        Thread.setDefaultUncaughtExceptionHandler((thread, fault) -> {
            fault.printStackTrace();
            System.exit(1);
        });
        for (String word : words) {
            if (scenarios.containsKey(word)) {
                scenarios.get(word).run();
            }
        }
        System.exit(0);
    }

    static void report(Figure figure, double[] samples, long count) {
        Arrays.sort(samples);
        double best = figure.unit.equals("ns") ? samples[0] : samples[samples.length - 1];
        double median = samples[samples.length / 2];
        System.out.printf(
                "%s\t%s\t%s\t%s\t%.3f\t%.3f\t%d%n",
                figure.peer, figure.scenario, figure.name, figure.unit, best, median, count);
    }

    static <R> Runs<R> repeats(long most, LongFunction<R> once) {
        long few = Math.min(most, Math.max(1_000, most / 100));
        double projected = warmSecondsOf(few, once) * most / few;
        double share = Math.min(1.0, REPEAT_SECONDS / projected);
        long count = Math.max(few, (long) (most * share));
        List<R> results = new ArrayList<>();
        for (int i = 0; i < REPEATS; i++) {
            results.add(once.apply(count));
        }
        return new Runs<>(count, results);
    }

    private static <R> double warmSecondsOf(long few, LongFunction<R> once) {
        long begin = System.nanoTime();
        while (true) {
            long start = System.nanoTime();
            once.apply(few);
            long end = System.nanoTime();
            if ((end - begin) / 1e9 > WARM_SECONDS) {
                return (end - start) / 1e9;
            }
        }
    }

    /** In nanoseconds for each of `each` operations a value. What `once` gives is in nanoseconds. */
    static void cost(String peer, String scenario, String name, long most, int each, LongFunction<Long> once) {
        Runs<Long> runs = repeats(most, once);
        double operations = (double) runs.count * each;
        double[] samples = runs.results.stream().mapToDouble(time -> time / operations).toArray();
        report(new Figure(peer, scenario, name, "ns"), samples, runs.count);
    }

    /** In millions of values a second. */
    static void rate(String peer, String scenario, String name, long most, LongFunction<Long> once) {
        Runs<Long> runs = repeats(most, once);
        double[] samples = runs.results.stream().mapToDouble(time -> runs.count * 1e3 / time).toArray();
        report(new Figure(peer, scenario, name, "M/s"), samples, runs.count);
    }

    static long sumBelow(long count) {
        return count * (count - 1) / 2;
    }

    static void check(boolean holds, String what) {
        if (!holds) {
            throw new IllegalStateException(what);
        }
    }
}
