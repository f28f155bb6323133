import com.lmax.disruptor.BlockingWaitStrategy;
import com.lmax.disruptor.RingBuffer;
import com.lmax.disruptor.Sequence;
import com.lmax.disruptor.SequenceBarrier;
import java.util.ArrayList;
import java.util.List;
import java.util.stream.Stream;

/** A ring with one place, whose readers sleep at its barrier. */
final class DisruptorTalks implements Talks {
    /** A reader: how far it is, and the barrier at which it waits for more. */
    record Reader(RingBuffer<DisruptorPeer.Cell> ring, SequenceBarrier barrier, Sequence taken) implements Talks.Ear {
        @Override
        public long hear() throws Exception {
            long number = taken.get() + 1;
            barrier.waitFor(number);
            long value = ring.get(number).value;
            taken.set(number);
            return value;
        }
    }

    @Override
    public Talks.Party open(int readers) {
        RingBuffer<DisruptorPeer.Cell> ring =
                RingBuffer.createSingleProducer(DisruptorPeer.Cell::new, 1, new BlockingWaitStrategy());
        List<Reader> all = Stream.generate(() -> new Reader(ring, ring.newBarrier(), new Sequence()))
                .limit(readers)
                .toList();
        all.forEach(reader -> ring.addGatingSequences(reader.taken));
        return new Talks.Party(value -> DisruptorPeer.publish(ring, value), new ArrayList<>(all));
    }
}
