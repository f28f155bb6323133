import kotlinx.coroutines.ExperimentalCoroutinesApi
import kotlinx.coroutines.channels.*
import java.util.function.LongFunction
import kotlin.coroutines.Continuation
import kotlin.coroutines.EmptyCoroutineContext
import kotlin.coroutines.startCoroutine

// Emissions of many emitters that all wait for one place, on one thread: a value is received, the emission whose turn
// it is finds room, and the emitter of the value begins anew. They have no dispatcher: who receives goes on with the
// one that finds room, before the call comes back.

private const val RECEIPTS = 100_000L

/** An emitter, with at most one emission in flight. */
private class Emitter(private val channel: SendChannel<Long>) : Continuation<Unit> {
    var isDone = true
        private set

    override val context get() = EmptyCoroutineContext

    override fun resumeWith(result: Result<Unit>) {
        result.getOrThrow()
        isDone = true
    }

    fun begin(value: Long) {
        Figures.check(isDone, "kotlin: an emission is in flight")
        isDone = false
        val emission: suspend () -> Unit = { channel.send(value) }
        emission.startCoroutine(this)
    }
}

@ExperimentalCoroutinesApi
internal fun asleep() {
    for (emitters in listOf(10, 100, 1000)) {
        receipt("kotlin-broadcast", emitters) {
            val channel = BroadcastChannel<Long>(1)
            Pair(channel, channel.openSubscription())
        }
        receipt("kotlin-channel", emitters) {
            val channel = Channel<Long>(1)
            Pair(channel, channel)
        }
    }
}

private fun receipt(peer: String, emitters: Int, open: () -> Pair<SendChannel<Long>, ReceiveChannel<Long>>) =
    Figures.cost(peer, "asleep-n$emitters", "receipt", RECEIPTS, 1, LongFunction { count ->
        val (channel, reader) = open()
        val all = List(emitters) { Emitter(channel) }
        all.forEachIndexed { first, emitter -> emitter.begin(first.toLong()) }
        val start = System.nanoTime()
        received(all, reader, count)
        System.nanoTime() - start
    })

private fun received(all: List<Emitter>, reader: ReceiveChannel<Long>, count: Long) {
    for (value in 0 until count) {
        Figures.check(reader.poll() == value, "kotlin: a value was lost")
        Figures.check(all[((value + 1) % all.size).toInt()].isDone, "kotlin: no room")
        all[(value % all.size).toInt()].begin(value + all.size)
    }
}
