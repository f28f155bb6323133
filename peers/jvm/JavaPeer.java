import java.util.List;
import java.util.Map;
import java.util.concurrent.ArrayBlockingQueue;
import java.util.stream.LongStream;
import java.util.stream.Stream;

/** Java's own: a bounded queue that blocks, and streams of numbers. */
final class JavaPeer {
    private static final String QUEUE = "java-queue-wait";

    private JavaPeer() {}

    public static void main(String[] words) {
        Figures.main(
                words,
                Map.of(
                        "split", JavaPeer::split,
                        "cold", JavaPeer::cold,
                        "ping-pong", () -> PingPong.measure(Map.of(QUEUE, count -> PingPong.turns(talks(), count))),
                        "wake", () -> Wake.measure(Map.of(QUEUE, Wake.by(talks())))));
    }

    /** A queue with one place for each reader. */
    private static Talks talks() {
        return readers -> {
            List<ArrayBlockingQueue<Long>> queues =
                    Stream.generate(() -> new ArrayBlockingQueue<Long>(1)).limit(readers).toList();
            List<Talks.Ear> ears = queues.stream().map(queue -> (Talks.Ear) queue::take).toList();
            return new Talks.Party(value -> putInto(queues, value), ears);
        };
    }

    private static void putInto(List<ArrayBlockingQueue<Long>> queues, long value) throws InterruptedException {
        for (ArrayBlockingQueue<Long> queue : queues) {
            queue.put(value);
        }
    }

    private static void split() {
        for (int capacity : new int[] {4, 64, 1024}) {
            String scenario = "split-k" + capacity;
            Figures.cost(QUEUE, scenario, "value", 5_000_000, 1, count -> queued(capacity, count));
        }
    }

    private static long queued(int capacity, long count) {
        ArrayBlockingQueue<Long> queue = new ArrayBlockingQueue<>(capacity);
        Race race = Race.of(List.of(() -> putAll(queue, count), () -> sumOf(queue, count)));
        Figures.check(race.results[1] == Figures.sumBelow(count), "java: a value was lost");
        return race.all;
    }

    private static long putAll(ArrayBlockingQueue<Long> queue, long count) throws InterruptedException {
        for (long value = 0; value < count; value++) {
            queue.put(value);
        }
        return 0;
    }

    private static long sumOf(ArrayBlockingQueue<Long> queue, long count) throws InterruptedException {
        long sum = 0;
        for (long taken = 0; taken < count; taken++) {
            sum += queue.take();
        }
        return sum;
    }

    private static void cold() {
        Figures.cost("java-stream", "cold-chain", "element", 10_000_000, 1, count -> {
            long start = System.nanoTime();
            long sum = LongStream.range(0, count).map(x -> x + 1).filter(x -> x % 2 == 0).sum();
            long time = System.nanoTime() - start;
            Figures.check(sum != 0, "java: no sum");
            return time;
        });
    }
}
