import io.reactivex.rxjava3.core.BackpressureOverflowStrategy;
import io.reactivex.rxjava3.core.Flowable;
import io.reactivex.rxjava3.processors.BehaviorProcessor;
import io.reactivex.rxjava3.processors.FlowableProcessor;
import io.reactivex.rxjava3.processors.PublishProcessor;
import io.reactivex.rxjava3.processors.ReplayProcessor;
import io.reactivex.rxjava3.schedulers.Schedulers;
import io.reactivex.rxjava3.subscribers.DisposableSubscriber;
import java.util.ArrayList;
import java.util.List;
import java.util.Map;
import java.util.concurrent.CountDownLatch;
import java.util.concurrent.atomic.AtomicBoolean;
import java.util.function.Supplier;
import java.util.stream.IntStream;

/** RxJava 3. Its values are boxed. */
final class RxJavaPeer {
    private static final long VALUES = 2_000_000;
    private static final long MANY_VALUES = 5_000_000;
    private static final long ELEMENTS = 10_000_000;
    private static final int CAPACITY = 1024;
    private static final long BATCH = 16;

    private RxJavaPeer() {}

    /** A subscriber that adds up what it gets. */
    static final class Adder extends DisposableSubscriber<Long> {
        private final CountDownLatch ended = new CountDownLatch(1);
        private long sum;
        private long count;

        @Override
        public void onNext(Long value) {
            sum += value;
            count++;
        }

        @Override
        public void onError(Throwable fault) {
            fault.printStackTrace();
            System.exit(1);
        }

        @Override
        public void onComplete() {
            ended.countDown();
        }
    }

    public static void main(String[] words) {
        Figures.main(
                words,
                Map.of(
                        "receipts", RxJavaPeer::receipts,
                        "fan-out", () -> fanOut("rxjava-observeOn", "fan-out-n", 1, 2, 4, 16, 32),
                        "fan-out-by64", () -> fanOut("rxjava-observeOn-by1", "fan-out-by64-n", 1, 2, 4),
                        "lossy", RxJavaPeer::lossy,
                        "state", RxJavaPeer::state,
                        "split", RxJavaPeer::split,
                        "cold", RxJavaPeer::cold,
                        "ping-pong", () -> PingPong.measure(Map.of("rxjava-observeOn", RxJavaTalks::turns)),
                        "wake", () -> Wake.measure(Map.of("rxjava-observeOn", RxJavaTalks::audience)),
                        "churn", RxJavaPeer::churn));
    }

    private static List<Adder> adders(int readers) {
        return IntStream.range(0, readers).mapToObj(which -> new Adder()).toList();
    }

    private static void checkSums(List<Adder> adders, long count) {
        for (Adder adder : adders) {
            Figures.check(adder.sum == Figures.sumBelow(count), "rxjava: a value was lost");
        }
    }

    private static void receipts() {
        for (int readers : new int[] {1, 4, 8}) {
            pushed("rxjava-publish", readers, PublishProcessor::create);
            pushed("rxjava-replay", readers, () -> ReplayProcessor.createWithSize(64));
            pushed("rxjava-behavior", readers, BehaviorProcessor::create);
        }
    }

    private static void pushed(String peer, int readers, Supplier<FlowableProcessor<Long>> maker) {
        Figures.cost(peer, "receipts-n" + readers, "receipt", VALUES, readers, count -> {
            FlowableProcessor<Long> processor = maker.get();
            List<Adder> adders = adders(readers);
            adders.forEach(processor::subscribe);
            long start = System.nanoTime();
            for (long value = 0; value < count; value++) {
                processor.onNext(value);
            }
            long time = System.nanoTime() - start;
            checkSums(adders, count);
            return time;
        });
    }

    private static void fanOut(String peer, String scenario, int... all) {
        for (int readers : all) {
            Figures.rate(peer, scenario + readers, "values", VALUES, count -> observed(readers, count));
        }
    }

    private static long observed(int readers, long count) {
        PublishProcessor<Long> processor = PublishProcessor.create();
        List<Adder> adders = adders(readers);
        adders.forEach(adder ->
                processor.observeOn(Schedulers.newThread(), false, CAPACITY).subscribe(adder));
        Pause pause = new Pause(CAPACITY);
        long start = System.nanoTime();
        for (long value = 0; value < count; ) {
            if (processor.offer(value)) {
                value++;
                pause.reset();
            } else {
                pause.await();
            }
        }
        processor.onComplete();
        adders.forEach(adder -> Race.await(adder.ended));
        long time = System.nanoTime() - start;
        checkSums(adders, count);
        return time;
    }

    private static void churn() {
        for (int live : new int[] {1, 64, 512}) {
            Figures.cost("rxjava-publish", "churn-n" + live, "turn", 1_000_000, 1, count -> cameAndWent(live, count));
        }
    }

    /** A subscriber comes and goes beside so many that stay, so often. */
    private static long cameAndWent(int live, long count) {
        PublishProcessor<Long> processor = PublishProcessor.create();
        List<Adder> adders = adders(live);
        adders.forEach(processor::subscribe);
        long[] heard = new long[1];
        long start = System.nanoTime();
        for (long i = 0; i < count; i++) {
            processor.subscribe(value -> heard[0]++).dispose();
        }
        long time = System.nanoTime() - start;
        processor.onNext(1L);
        Figures.check(heard[0] == 0, "rxjava: a guest stayed");
        Figures.check(adders.stream().allMatch(adder -> adder.count == 1), "rxjava: a value was lost");
        return time;
    }

    /** What one repeat of a flow that drops the oldest gave. */
    record Losses(double emission, double receipts, double kept) {}

    private static void lossy() {
        for (int readers : new int[] {1, 2, 4}) {
            String scenario = "lossy-n" + readers;
            String peer = "rxjava-dropOldest";
            Figures.Runs<Losses> runs = Figures.repeats(VALUES, count -> dropped(readers, count));
            List<Losses> all = runs.results();
            double[] emissions = all.stream().mapToDouble(Losses::emission).toArray();
            double[] receipts = all.stream().mapToDouble(Losses::receipts).toArray();
            double[] kept = all.stream().mapToDouble(Losses::kept).toArray();
            Figures.report(new Figures.Figure(peer, scenario, "emission", "ns"), emissions, runs.count());
            Figures.report(new Figures.Figure(peer, scenario, "receipts", "M/s"), receipts, runs.count());
            Figures.report(new Figures.Figure(peer, scenario, "kept", "%"), kept, runs.count());
        }
    }

    private static Losses dropped(int readers, long count) {
        PublishProcessor<Long> processor = PublishProcessor.create();
        List<Adder> adders = adders(readers);
        adders.forEach(adder -> processor
                .onBackpressureBuffer(CAPACITY, () -> {}, BackpressureOverflowStrategy.DROP_OLDEST)
                .observeOn(Schedulers.newThread(), false, 16)
                .subscribe(adder));
        long start = System.nanoTime();
        for (long value = 0; value < count; value++) {
            processor.onNext(value);
        }
        double emitted = System.nanoTime() - start;
        processor.onComplete();
        adders.forEach(adder -> Race.await(adder.ended));
        double all = System.nanoTime() - start;
        double received = adders.stream().mapToLong(adder -> adder.count).sum();
        return new Losses(emitted / count, received * 1e3 / all, 100 * received / count / readers);
    }

    private static void state() {
        Figures.cost("rxjava-behavior", "state-alone", "set", VALUES, 1, RxJavaPeer::set);
        Figures.cost("rxjava-behavior", "state-alone", "read", VALUES, 1, RxJavaPeer::read);
        Figures.cost("rxjava-behavior", "state-alone", "set+ask", VALUES, 1, RxJavaPeer::setAndAsk);
        for (int collectors : new int[] {1, 2}) {
            asked(collectors);
        }
    }

    private static long set(long count) {
        BehaviorProcessor<Long> state = BehaviorProcessor.createDefault(0L);
        long start = System.nanoTime();
        for (long value = 0; value < count; value++) {
            state.onNext(value);
        }
        return System.nanoTime() - start;
    }

    private static long read(long count) {
        BehaviorProcessor<Long> state = BehaviorProcessor.createDefault(7L);
        long sum = 0;
        long start = System.nanoTime();
        for (long i = 0; i < count; i++) {
            sum += state.getValue();
        }
        long time = System.nanoTime() - start;
        Figures.check(sum == 7 * count, "rxjava: a wrong value");
        return time;
    }

    private static long setAndAsk(long count) {
        BehaviorProcessor<Long> state = BehaviorProcessor.createDefault(0L);
        long last = 0;
        long start = System.nanoTime();
        for (long value = 1; value <= count; value++) {
            state.onNext(value);
            long now = state.getValue();
            Figures.check(now != last, "rxjava: not new");
            last = now;
        }
        return System.nanoTime() - start;
    }

    private static void asked(int collectors) {
        String scenario = "state-c" + collectors;
        Figures.Runs<Race> runs = Figures.repeats(VALUES, count -> {
            BehaviorProcessor<Long> state = BehaviorProcessor.createDefault(0L);
            AtomicBoolean over = new AtomicBoolean();
            List<Race.Job> jobs = new ArrayList<>();
            jobs.add(() -> setAll(state, count, over));
            IntStream.range(0, collectors).forEach(which -> jobs.add(() -> asksOf(state, over)));
            return Race.of(jobs);
        });
        double count = runs.count();
        double[] sets = runs.results().stream().mapToDouble(race -> race.first / count).toArray();
        Figures.report(new Figures.Figure("rxjava-behavior", scenario, "set", "ns"), sets, runs.count());
        double[] asks = runs.results().stream()
                .mapToDouble(race -> race.all * (double) collectors / Math.max(1, race.sumOfOthers()))
                .toArray();
        Figures.report(new Figures.Figure("rxjava-behavior", scenario, "ask", "ns"), asks, runs.count());
    }

    private static long setAll(BehaviorProcessor<Long> state, long count, AtomicBoolean over) {
        for (long value = 1; value <= count; value++) {
            state.onNext(value);
        }
        over.set(true);
        return 0;
    }

    private static long asksOf(BehaviorProcessor<Long> state, AtomicBoolean over) {
        long asks = 0;
        long last = 0;
        while (asks % BATCH != 0 || !over.get()) {
            long now = state.getValue();
            if (now != last) {
                Figures.check(now > last, "rxjava: not in order");
                last = now;
            }
            asks++;
        }
        return asks;
    }

    private static void split() {
        for (int capacity : new int[] {4, 64, 1024}) {
            Figures.cost("rxjava-observeOn", "split-k" + capacity, "value", MANY_VALUES, 1, count -> {
                Adder adder = new Adder();
                long start = System.nanoTime();
                Flowable.rangeLong(0, count)
                        .subscribeOn(Schedulers.newThread())
                        .observeOn(Schedulers.newThread(), false, capacity)
                        .subscribe(adder);
                Race.await(adder.ended);
                long time = System.nanoTime() - start;
                checkSums(List.of(adder), count);
                return time;
            });
        }
    }

    private static void cold() {
        Figures.cost("rxjava-flowable", "cold-chain", "element", ELEMENTS, 1, count ->
                folded(Flowable.rangeLong(0, count).map(x -> x + 1).filter(x -> x % 2 == 0)));
        Figures.cost("rxjava-flowable", "cold-zip", "element", ELEMENTS, 1, count ->
                folded(Flowable.zip(
                        Flowable.rangeLong(0, count), Flowable.rangeLong(1, count), (a, b) -> (a * 3) ^ b)));
    }

    private static long folded(Flowable<Long> flow) {
        long start = System.nanoTime();
        long sum = flow.reduce(0L, Long::sum).blockingGet();
        long time = System.nanoTime() - start;
        Figures.check(sum != 0, "rxjava: no sum");
        return time;
    }
}
