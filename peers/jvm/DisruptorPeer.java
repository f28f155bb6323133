import com.lmax.disruptor.BlockingWaitStrategy;
import com.lmax.disruptor.EventHandler;
import com.lmax.disruptor.EventPoller;
import com.lmax.disruptor.RingBuffer;
import com.lmax.disruptor.WaitStrategy;
import com.lmax.disruptor.YieldingWaitStrategy;
import com.lmax.disruptor.dsl.Disruptor;
import com.lmax.disruptor.dsl.ProducerType;
import java.util.ArrayList;
import java.util.List;
import java.util.Map;
import java.util.concurrent.CountDownLatch;
import java.util.concurrent.ThreadFactory;
import java.util.stream.IntStream;
import java.util.stream.Stream;

/** The Disruptor: one sequencer and a cursor for each reader. */
final class DisruptorPeer {
    private static final long VALUES = 2_000_000;
    private static final long VALUES_BY_BLOCK = 10_000_000;
    private static final int CAPACITY = 1024;
    private static final int RECEIPTS_BLOCK = 16;
    private static final int FAN_OUT_BLOCK = 64;

    private DisruptorPeer() {}

    /** An event: one number. */
    static final class Cell {
        long value;
    }

    /** A reader that adds up what it gets. */
    static final class Adder implements EventHandler<Cell> {
        private final long last;
        private final CountDownLatch left;
        private final long[] sum = new long[16];

        Adder(long last, CountDownLatch left) {
            this.last = last;
            this.left = left;
        }

        @Override
        public void onEvent(Cell cell, long number, boolean endOfBatch) {
            sum[8] += cell.value;
            if (number == last) {
                left.countDown();
            }
        }

        long sum() {
            return sum[8];
        }
    }

    public static void main(String[] words) {
        Figures.main(
                words,
                Map.of(
                        "receipts", DisruptorPeer::receipts,
                        "receipts-by16", DisruptorPeer::receiptsByBlock,
                        "fan-out", DisruptorPeer::fanOut,
                        "fan-out-by64", DisruptorPeer::fanOutByBlock,
                        "split", DisruptorPeer::split,
                        "ping-pong", DisruptorPeer::pingPong,
                        "wake", () -> Wake.measure(Map.of("disruptor-wait", Wake.by(new DisruptorTalks()))),
                        "churn", DisruptorPeer::churn));
    }

    private static void receipts() {
        for (int readers : new int[] {1, 4, 8}) {
            String scenario = "receipts-n" + readers;
            Figures.cost("disruptor", scenario, "receipt", VALUES, readers, count -> polled(readers, 1, count));
        }
    }

    private static void receiptsByBlock() {
        for (int readers : new int[] {1, 4, 8}) {
            String scenario = "receipts-by16-n" + readers;
            Figures.cost("disruptor", scenario, "receipt", VALUES, readers, count ->
                    polled(readers, RECEIPTS_BLOCK, count));
        }
    }

    /** A poll takes one value, or the whole block. */
    private static long polled(int readers, int block, long count) {
        RingBuffer<Cell> ring = RingBuffer.createSingleProducer(Cell::new, 64);
        List<EventPoller<Cell>> pollers = new ArrayList<>();
        IntStream.range(0, readers).forEach(which -> pollers.add(ring.newPoller()));
        pollers.forEach(poller -> ring.addGatingSequences(poller.getSequence()));
        long[] sum = new long[1];
        EventPoller.Handler<Cell> one = (cell, number, endOfBatch) -> {
            sum[0] += cell.value;
            return false;
        };
        EventPoller.Handler<Cell> all = (cell, number, endOfBatch) -> {
            sum[0] += cell.value;
            return true;
        };
        EventPoller.Handler<Cell> handler = block == 1 ? one : all;
        long start = System.nanoTime();
        try {
            for (long value = 0; value < count; value += block) {
                publish(ring, value, block, count);
                for (EventPoller<Cell> poller : pollers) {
                    poller.poll(handler);
                }
            }
        } catch (Exception fault) {
            throw new IllegalStateException(fault);
        }
        long time = System.nanoTime() - start;
        Figures.check(sum[0] == Figures.sumBelow(count) * readers, "disruptor: a value was lost");
        return time;
    }

    /** One value, or a block from this one up, all below the count. */
    private static void publish(RingBuffer<Cell> ring, long value, int block, long count) {
        if (block == 1) {
            publish(ring, value);
        } else {
            publishAll(ring, value, (int) Math.min(block, count - value));
        }
    }

    private static void publishAll(RingBuffer<Cell> ring, long value, int size) {
        long last = ring.next(size);
        long first = last - size + 1;
        for (long number = first; number <= last; number++) {
            ring.get(number).value = value + number - first;
        }
        ring.publish(first, last);
    }

    static void publish(RingBuffer<Cell> ring, long value) {
        long number = ring.next();
        ring.get(number).value = value;
        ring.publish(number);
    }

    private static void fanOut() {
        for (int readers : new int[] {1, 2, 4, 16, 32}) {
            String scenario = "fan-out-n" + readers;
            Figures.rate("disruptor", scenario, "values", VALUES, count ->
                    handled(new YieldingWaitStrategy(), CAPACITY, readers, 1, count));
            Figures.rate("disruptor-wait", scenario, "values", VALUES, count ->
                    handled(new BlockingWaitStrategy(), CAPACITY, readers, 1, count));
        }
    }

    private static void fanOutByBlock() {
        for (int readers : new int[] {1, 2, 4}) {
            String scenario = "fan-out-by64-n" + readers;
            Figures.rate("disruptor", scenario, "values", VALUES_BY_BLOCK, count ->
                    handled(new YieldingWaitStrategy(), CAPACITY, readers, FAN_OUT_BLOCK, count));
            Figures.rate("disruptor-wait", scenario, "values", VALUES_BY_BLOCK, count ->
                    handled(new BlockingWaitStrategy(), CAPACITY, readers, FAN_OUT_BLOCK, count));
        }
    }

    private static void pingPong() {
        PingPong.measure(Map.of("disruptor-wait", count -> PingPong.turns(new DisruptorTalks(), count)));
    }

    private static void churn() {
        for (int live : new int[] {1, 64, 512}) {
            Figures.cost("disruptor", "churn-n" + live, "turn", 1_000_000, 1, count -> cameAndWent(live, count));
        }
    }

    /** A reader comes and goes beside so many that stay, so often. */
    private static long cameAndWent(int live, long count) {
        RingBuffer<Cell> ring = RingBuffer.createSingleProducer(Cell::new, 1);
        Stream.generate(ring::newPoller).limit(live).forEach(poller -> ring.addGatingSequences(poller.getSequence()));
        long start = System.nanoTime();
        for (long i = 0; i < count; i++) {
            EventPoller<Cell> guest = ring.newPoller();
            ring.addGatingSequences(guest.getSequence());
            Figures.check(ring.removeGatingSequence(guest.getSequence()), "disruptor: no guest");
        }
        return System.nanoTime() - start;
    }

    private static void split() {
        // At a capacity of 4 its producer parks between two values, and a value takes 5,000 ns and more.
        for (int capacity : new int[] {64, 1024}) {
            String scenario = "split-k" + capacity;
            Figures.cost("disruptor", scenario, "value", 5_000_000, 1, count ->
                    handled(new YieldingWaitStrategy(), capacity, 1, 1, count));
        }
    }

    private static long handled(WaitStrategy waits, int capacity, int readers, int block, long count) {
        ThreadFactory threads = Thread::new;
        Disruptor<Cell> disruptor = new Disruptor<>(Cell::new, capacity, threads, ProducerType.SINGLE, waits);
        CountDownLatch left = new CountDownLatch(readers);
        Adder[] adders = new Adder[readers];
        for (int i = 0; i < readers; i++) {
            adders[i] = new Adder(count - 1, left);
        }
        disruptor.handleEventsWith(adders);
        RingBuffer<Cell> ring = disruptor.start();
        long start = System.nanoTime();
        for (long value = 0; value < count; value += block) {
            publish(ring, value, block, count);
        }
        Race.await(left);
        long time = System.nanoTime() - start;
        disruptor.shutdown();
        for (Adder adder : adders) {
            Figures.check(adder.sum() == Figures.sumBelow(count), "disruptor: a value was lost");
        }
        return time;
    }
}
