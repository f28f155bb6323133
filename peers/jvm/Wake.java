import java.util.List;
import java.util.Map;
import java.util.stream.LongStream;

/** One emission to readers that all sleep, each in a thread of its own: from its begin until the last one has it. */
final class Wake {
    private static final long EMISSIONS = 100;

    private Wake() {}

    /** What emits, and what the threads of readers do. */
    record Audience(Talks.Voice voice, List<Runnable> readers) {}

    /** A peer. Each of so many readers tells of each of so many values. */
    interface Opener {
        Audience open(int readers, long count, Heard heard);
    }

    static void measure(Map<String, Opener> peers) {
        for (int readers : new int[] {16, 64}) {
            String scenario = "wake-n" + readers;
            peers.forEach((peer, opener) -> Figures.cost(peer, scenario, "all", EMISSIONS, 1, count ->
                    emitted(opener, readers, count)));
        }
    }

    /** What so many emissions take together, without the rests between them. */
    private static long emitted(Opener opener, int readers, long count) {
        Heard heard = new Heard();
        Audience audience = opener.open(readers, count, heard);
        List<Thread> threads = audience.readers.stream().map(Thread::new).toList();
        threads.forEach(Thread::start);
        long time = LongStream.rangeClosed(1, count)
                .map(value -> emittedOne(audience.voice, value, readers, heard))
                .sum();
        threads.forEach(Race::join);
        return time;
    }

    private static long emittedOne(Talks.Voice voice, long value, int readers, Heard heard) {
        Heard.rest();
        long start = System.nanoTime();
        try {
            voice.say(value);
        } catch (Exception fault) {
            throw new IllegalStateException(fault);
        }
        return heard.restUntil(value * readers) - start;
    }

    /** A peer whose readers hear by calls that wait. */
    static Opener by(Talks flow) {
        return (readers, count, heard) -> {
            Talks.Party party = flow.open(readers);
            List<Runnable> all = party.ears().stream().map(ear -> hearing(ear, count, heard)).toList();
            return new Audience(party.voice(), all);
        };
    }

    private static Runnable hearing(Talks.Ear ear, long count, Heard heard) {
        return () -> {
            for (long value = 1; value <= count; value++) {
                try {
                    Figures.check(ear.hear() == value, "a value was lost");
                } catch (Exception fault) {
                    throw new IllegalStateException(fault);
                }
                heard.one();
            }
        };
    }
}
