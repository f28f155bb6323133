import java.util.Arrays;
import java.util.List;
import java.util.concurrent.CountDownLatch;
import java.util.concurrent.CyclicBarrier;

/** Threads that start at once. */
final class Race {
    /** What a thread does. It gives a sum or a count, which is checked. */
    interface Job {
        long run() throws Exception;
    }

    /** From the start to the end of the last job, in nanoseconds. */
    long all;
    /** From the start to the end of the first job, which is the one that emits. */
    long first;
    /** What each job gave. */
    final long[] results;

    private final long[] starts;
    private final long[] ends;

    private Race(int count) {
        results = new long[count];
        starts = new long[count];
        ends = new long[count];
    }

    /** Runs each job in a thread of its own. */
    static Race of(List<Job> jobs) {
        Race race = new Race(jobs.size());
        CyclicBarrier gate = new CyclicBarrier(jobs.size());
        CountDownLatch left = new CountDownLatch(jobs.size());
        for (int i = 0; i < jobs.size(); i++) {
            int which = i;
            new Thread(() -> race.run(gate, which, jobs.get(which), left)).start();
        }
        await(left);
        race.all = Arrays.stream(race.ends).max().getAsLong() - Arrays.stream(race.starts).min().getAsLong();
        race.first = race.ends[0] - race.starts[0];
        return race;
    }

    private void run(CyclicBarrier gate, int which, Job job, CountDownLatch left) {
        try {
            gate.await();
            starts[which] = System.nanoTime();
            results[which] = job.run();
            ends[which] = System.nanoTime();
            left.countDown();
        } catch (Exception fault) {
            fault.printStackTrace();
            System.exit(1);
        }
    }

    static void await(CountDownLatch latch) {
        try {
            latch.await();
        } catch (InterruptedException fault) {
            throw new IllegalStateException(fault);
        }
    }

    static void join(Thread thread) {
        try {
            thread.join();
        } catch (InterruptedException fault) {
            throw new IllegalStateException(fault);
        }
    }

    /** The sum of what all jobs but the first gave. */
    long sumOfOthers() {
        return Arrays.stream(results).skip(1).sum();
    }
}
