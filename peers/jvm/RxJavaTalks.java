import io.reactivex.rxjava3.functions.Consumer;
import io.reactivex.rxjava3.processors.PublishProcessor;
import io.reactivex.rxjava3.schedulers.Schedulers;
import io.reactivex.rxjava3.subscribers.DisposableSubscriber;
import java.util.List;
import java.util.concurrent.CountDownLatch;
import java.util.stream.IntStream;

/** RxJava's subscribers that wake each other. Each hears by `observeOn` in a thread of its own, which a 0 begins. */
final class RxJavaTalks {
    /** `observeOn` asks for more once three quarters of its places were used, so one wouldn't do. */
    private static final int PLACES = 16;

    private RxJavaTalks() {}

    /** A subscriber that takes the numbers from 0 to `last` in order, and then goes. */
    static final class Hearer extends DisposableSubscriber<Long> {
        private final long last;
        private final Consumer<Long> heard;
        private long next;

        Hearer(long last, Consumer<Long> heard) {
            this.last = last;
            this.heard = heard;
        }

        @Override
        public void onNext(Long value) {
            Figures.check(value == next, "rxjava: a value was lost");
            next++;
            try {
                heard.accept(value);
            } catch (Throwable fault) {
                onError(fault);
            }
            if (value == last) {
                dispose();
            }
        }

        @Override
        public void onError(Throwable fault) {
            fault.printStackTrace();
            System.exit(1);
        }

        @Override
        public void onComplete() {}
    }

    private static void hear(PublishProcessor<Long> flow, long last, Consumer<Long> heard) {
        flow.observeOn(Schedulers.newThread(), false, PLACES).subscribe(new Hearer(last, heard));
    }

    /** How long so many turns take, after one that begins both threads. */
    static long turns(long count) {
        PublishProcessor<Long> questions = PublishProcessor.create();
        PublishProcessor<Long> answers = PublishProcessor.create();
        CountDownLatch ended = new CountDownLatch(1);
        long[] times = new long[2];
        hear(questions, count, answers::onNext);
        hear(answers, count, value -> {
            if (value == 0) {
                times[0] = System.nanoTime();
            }
            if (value < count) {
                questions.onNext(value + 1);
            } else {
                times[1] = System.nanoTime();
                ended.countDown();
            }
        });
        questions.onNext(0L);
        Race.await(ended);
        return times[1] - times[0];
    }

    static Wake.Audience audience(int readers, long count, Heard heard) {
        PublishProcessor<Long> flow = PublishProcessor.create();
        CountDownLatch begun = new CountDownLatch(readers);
        Consumer<Long> tell = value -> {
            if (value == 0) {
                begun.countDown();
            } else {
                heard.one();
            }
        };
        IntStream.range(0, readers).forEach(which -> hear(flow, count, tell));
        flow.onNext(0L);
        Race.await(begun);
        return new Wake.Audience(flow::onNext, List.of());
    }
}
