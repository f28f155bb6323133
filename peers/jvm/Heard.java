import java.util.concurrent.atomic.AtomicLong;
import java.util.concurrent.locks.LockSupport;

/** What readers say: how many values all of them heard, and when one was heard last, in nanoseconds. */
final class Heard {
    /** After so many nanoseconds all readers sleep. */
    private static final long REST = 500_000;

    private final AtomicLong values = new AtomicLong();
    private final AtomicLong last = new AtomicLong(System.nanoTime());

    void one() {
        last.accumulateAndGet(System.nanoTime(), Math::max);
        values.incrementAndGet();
    }

    static void rest() {
        long end = System.nanoTime() + REST;
        for (long left = REST; left > 0; left = end - System.nanoTime()) {
            LockSupport.parkNanos(left);
        }
    }

    /** Rests until so many values were heard, and then gives when the last one was. */
    long restUntil(long count) {
        while (values.get() < count) {
            rest();
        }
        return last.get();
    }
}
