import java.util.List;
import java.util.Map;
import java.util.function.LongFunction;

/** Two threads answer each other, and each sleeps until the other's value comes. Alone, and beside busy threads. */
final class PingPong {
    private static final long TURNS = 100_000;
    /** Beside busy threads a turn may take some milliseconds. */
    private static final long BUSY_TURNS = 100;

    private PingPong() {}

    /** Measures peers, each of which tells how long so many turns take. */
    static void measure(Map<String, LongFunction<Long>> peers) {
        byAll("ping-pong-free", TURNS, peers);
        try (Busy busy = new Busy()) {
            byAll("ping-pong-busy", BUSY_TURNS, peers);
        }
    }

    private static void byAll(String scenario, long turns, Map<String, LongFunction<Long>> peers) {
        peers.forEach((peer, once) -> Figures.cost(peer, scenario, "turn", turns, 1, once));
    }

    /** How long so many turns take by this flow. */
    static long turns(Talks flow, long count) {
        Talks.Party asking = flow.open(1);
        Talks.Party answering = flow.open(1);
        return raced(
                () -> ask(asking.voice(), answering.ears().get(0), count),
                () -> reply(asking.ears().get(0), answering.voice(), count),
                count);
    }

    /** How long it takes one who asks and one who answers, which gives how many values came to it in order. */
    static long raced(Race.Job ask, Race.Job reply, long count) {
        Race race = Race.of(List.of(ask, reply));
        Figures.check(race.results[1] == count, "a value was lost");
        return race.all;
    }

    private static long ask(Talks.Voice question, Talks.Ear answer, long count) throws Exception {
        for (long value = 1; value <= count; value++) {
            question.say(value);
            Figures.check(answer.hear() == value, "a wrong answer");
        }
        return 0;
    }

    private static long reply(Talks.Ear question, Talks.Voice answer, long count) throws Exception {
        long inOrder = 0;
        for (long value = 1; value <= count; value++) {
            inOrder += question.hear() == value ? 1 : 0;
            answer.say(value);
        }
        return inOrder;
    }
}
