import java.util.List;
import java.util.stream.Stream;

/** As many threads that are busy with nothing as there are processors, until it is closed. */
final class Busy implements AutoCloseable {
    private volatile boolean isOver;
    private final List<Thread> threads;

    Busy() {
        int processors = Runtime.getRuntime().availableProcessors();
        threads = Stream.generate(() -> new Thread(this::spin)).limit(processors).toList();
        threads.forEach(Thread::start);
    }

    private void spin() {
        while (!isOver) {}
    }

    @Override
    public void close() {
        isOver = true;
        threads.forEach(Race::join);
    }
}
