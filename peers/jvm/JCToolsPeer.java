import java.util.ArrayList;
import java.util.Arrays;
import java.util.List;
import java.util.Map;
import java.util.stream.LongStream;
import java.util.stream.Stream;
import org.jctools.queues.MessagePassingQueue;
import org.jctools.queues.SpscArrayQueue;

/** JCTools' queue for one producer and one consumer, polled. By the block there is one for each reader. */
final class JCToolsPeer {
    private static final int RECEIPTS_BLOCK = 16;
    private static final int FAN_OUT_BLOCK = 64;

    private JCToolsPeer() {}

    public static void main(String[] words) {
        Figures.main(
                words,
                Map.of(
                        "receipts-by16", JCToolsPeer::receiptsByBlock,
                        "fan-out-by64", JCToolsPeer::fanOutByBlock,
                        "split", JCToolsPeer::split));
    }

    /** Numbers, each one above the one before. */
    static final class Numbers implements MessagePassingQueue.Supplier<Long> {
        private long next;

        @Override
        public Long get() {
            return next++;
        }
    }

    /** Adds up what it gets. */
    static final class Adder implements MessagePassingQueue.Consumer<Long> {
        private long sum;

        @Override
        public void accept(Long value) {
            sum += value;
        }
    }

    private static List<SpscArrayQueue<Long>> queues(int readers, int capacity) {
        return Stream.generate(() -> new SpscArrayQueue<Long>(capacity)).limit(readers).toList();
    }

    private static void receiptsByBlock() {
        for (int readers : new int[] {1, 4, 8}) {
            String scenario = "receipts-by16-n" + readers;
            Figures.cost("jctools-spsc", scenario, "receipt", 2_000_000, readers, count -> drained(readers, count));
        }
    }

    private static long drained(int readers, long count) {
        List<SpscArrayQueue<Long>> queues = queues(readers, 64);
        List<Numbers> numbers = Stream.generate(Numbers::new).limit(readers).toList();
        Adder adder = new Adder();
        long start = System.nanoTime();
        for (long value = 0; value < count; value += RECEIPTS_BLOCK) {
            int size = (int) Math.min(RECEIPTS_BLOCK, count - value);
            for (int i = 0; i < readers; i++) {
                queues.get(i).fill(numbers.get(i), size);
            }
            for (SpscArrayQueue<Long> queue : queues) {
                queue.drain(adder, size);
            }
        }
        long time = System.nanoTime() - start;
        Figures.check(adder.sum == Figures.sumBelow(count) * readers, "jctools: a value was lost");
        return time;
    }

    private static void fanOutByBlock() {
        for (int readers : new int[] {1, 2, 4}) {
            String scenario = "fan-out-by64-n" + readers;
            Figures.rate("jctools-spsc", scenario, "values", 10_000_000, count -> fannedOut(readers, count));
        }
    }

    private static long fannedOut(int readers, long count) {
        int capacity = 1024;
        List<SpscArrayQueue<Long>> queues = queues(readers, capacity);
        List<Race.Job> jobs = new ArrayList<>();
        jobs.add(() -> fillAll(queues, capacity, count));
        queues.forEach(queue -> jobs.add(() -> drainAll(queue, capacity, count)));
        Race race = Race.of(jobs);
        LongStream sums = Arrays.stream(race.results).skip(1);
        Figures.check(sums.allMatch(sum -> sum == Figures.sumBelow(count)), "jctools: a value was lost");
        return race.all;
    }

    /** Block after block, each into one queue after the other. */
    private static long fillAll(List<SpscArrayQueue<Long>> queues, int capacity, long count) {
        List<Numbers> numbers = queues.stream().map(queue -> new Numbers()).toList();
        Pause pause = new Pause(capacity);
        for (long end = 0; end < count; ) {
            end = Math.min(end + FAN_OUT_BLOCK, count);
            for (int i = 0; i < queues.size(); i++) {
                fillUpTo(queues.get(i), numbers.get(i), end, pause);
            }
        }
        return 0;
    }

    private static void fillUpTo(SpscArrayQueue<Long> queue, Numbers numbers, long end, Pause pause) {
        while (numbers.next < end) {
            if (queue.fill(numbers, (int) (end - numbers.next)) == 0) {
                pause.await();
            } else {
                pause.reset();
            }
        }
    }

    private static long drainAll(SpscArrayQueue<Long> queue, int capacity, long count) {
        Pause pause = new Pause(capacity);
        Adder adder = new Adder();
        for (long taken = 0; taken < count; ) {
            int size = queue.drain(adder, FAN_OUT_BLOCK);
            taken += size;
            if (size == 0) {
                pause.await();
            } else {
                pause.reset();
            }
        }
        return adder.sum;
    }

    private static void split() {
        for (int capacity : new int[] {4, 64, 1024}) {
            String scenario = "split-k" + capacity;
            Figures.cost("jctools-spsc", scenario, "value", 5_000_000, 1, count -> queued(capacity, count));
        }
    }

    private static long queued(int capacity, long count) {
        SpscArrayQueue<Long> queue = new SpscArrayQueue<>(capacity);
        Race race = Race.of(List.of(() -> offerAll(queue, capacity, count), () -> sumOf(queue, capacity, count)));
        Figures.check(race.results[1] == Figures.sumBelow(count), "jctools: a value was lost");
        return race.all;
    }

    private static long offerAll(SpscArrayQueue<Long> queue, int capacity, long count) {
        Pause pause = new Pause(capacity);
        for (long value = 0; value < count; ) {
            if (queue.offer(value)) {
                value++;
                pause.reset();
            } else {
                pause.await();
            }
        }
        return 0;
    }

    private static long sumOf(SpscArrayQueue<Long> queue, int capacity, long count) {
        Pause pause = new Pause(capacity);
        long sum = 0;
        for (long taken = 0; taken < count; ) {
            Long value = queue.poll();
            if (value == null) {
                pause.await();
            } else {
                sum += value;
                taken++;
                pause.reset();
            }
        }
        return sum;
    }
}
