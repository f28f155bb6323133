import kotlinx.coroutines.*
import kotlinx.coroutines.channels.*
import java.util.function.LongFunction

// Coroutines that wake each other. Each is alone in its thread, which sleeps where the coroutine waits.

/** What emits, and what each reader hears by. */
private class Party(private val voices: List<SendChannel<Long>>, val ears: List<ReceiveChannel<Long>>) {
    /** Emits a value, where every reader has taken those before it. */
    suspend fun say(value: Long) {
        for (voice in voices) voice.send(value)
    }

    /** The same where there is room, without a coroutine. */
    fun sayAtOnce(value: Long) {
        for (voice in voices) Figures.check(voice.offer(value), "kotlin: no room")
    }
}

@ExperimentalCoroutinesApi
private fun broadcast(channel: BroadcastChannel<Long>, readers: Int) =
    Party(listOf(channel), List(readers) { channel.openSubscription() })

private fun channels(readers: Int): Party {
    val all = List(readers) { Channel<Long>(1) }
    return Party(all, all)
}

@ExperimentalCoroutinesApi
private val parties: Map<String, (Int) -> Party> = mapOf(
    "kotlin-broadcast-wait" to { readers: Int -> broadcast(BroadcastChannel(1), readers) },
    "kotlin-channel-wait" to ::channels,
    "kotlin-conflated-wait" to { readers: Int -> broadcast(ConflatedBroadcastChannel(), readers) }
)

@ExperimentalCoroutinesApi
internal fun pingPong() = PingPong.measure(parties.mapValues { LongFunction<Long> { count -> turns(it.value, count) } })

private fun turns(open: (Int) -> Party, count: Long): Long {
    val asking = open(1)
    val answering = open(1)
    return PingPong.raced(ask(asking, answering.ears[0], count), reply(asking.ears[0], answering, count), count)
}

private fun ask(asking: Party, answer: ReceiveChannel<Long>, count: Long) = Race.Job {
    runBlocking {
        for (value in 1..count) {
            asking.say(value)
            Figures.check(answer.receive() == value, "kotlin: a wrong answer")
        }
    }
    0
}

/** Gives how many values came in order. */
private fun reply(question: ReceiveChannel<Long>, answering: Party, count: Long) = Race.Job {
    var inOrder = 0L
    runBlocking {
        for (value in 1..count) {
            if (question.receive() == value) inOrder++
            answering.say(value)
        }
    }
    inOrder
}

@ExperimentalCoroutinesApi
internal fun wake() = Wake.measure(parties.mapValues { Wake.Opener { readers, count, heard ->
    val party = it.value(readers)
    Wake.Audience(Talks.Voice(party::sayAtOnce), party.ears.map { ear -> hearing(ear, count, heard) })
} })

private fun hearing(ear: ReceiveChannel<Long>, count: Long, heard: Heard) = Runnable {
    runBlocking {
        for (value in 1..count) {
            Figures.check(ear.receive() == value, "kotlin: a value was lost")
            heard.one()
        }
    }
}
