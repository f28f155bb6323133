/** How a polled peer waits, as those of Rust: it spins twice as long each time, up to 64 turns, and then yields. */
final class Pause {
    private final int first;
    private int step;

    Pause(int capacity) {
        first = capacity >= 32 ? 5 : 0;
        step = first;
    }

    void await() {
        if (step > 6) {
            Thread.yield();
            return;
        }
        for (int i = 0; i < 1 << step; i++) {
            Thread.onSpinWait();
        }
        step++;
    }

    void reset() {
        step = first;
    }
}
