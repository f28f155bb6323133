import java.util.List;

/** A flow with one place, or a state, by which threads wake each other: who hears sleeps until a value comes. */
interface Talks {
    /** What emits. */
    interface Voice {
        /** Emits a value, where every reader has taken those before it. None is 0, none is equal to the one before. */
        void say(long value) throws Exception;
    }

    /** What a reader hears by. */
    interface Ear {
        /** The next value. */
        long hear() throws Exception;
    }

    /** What emits, and what each reader hears by. */
    record Party(Voice voice, List<Ear> ears) {}

    Party open(int readers);
}
