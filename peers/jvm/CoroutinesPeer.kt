import kotlinx.coroutines.*
import kotlinx.coroutines.channels.*
import java.util.concurrent.atomic.AtomicBoolean
import java.util.function.LongFunction

// Kotlin's coroutines 1.0.1, which have no Flow yet: BroadcastChannel came before SharedFlow, ConflatedBroadcastChannel
// before StateFlow, and a channel with produce before Flow and buffer.

private const val VALUES = 2_000_000L
private const val BATCH = 16

private inline fun timed(body: () -> Unit): Long {
    val start = System.nanoTime()
    body()
    return System.nanoTime() - start
}

private fun job(body: () -> Long) = Race.Job { body() }

private fun cost(peer: String, scenario: String, name: String, most: Long, each: Int, once: (Long) -> Long) =
    Figures.cost(peer, scenario, name, most, each, LongFunction { count -> once(count) })

private fun checkSum(sum: Long, count: Long) =
    Figures.check(sum == Figures.sumBelow(count), "kotlin: a value was lost")

@ExperimentalCoroutinesApi
private fun receipts() {
    for (readers in listOf(1, 4, 8)) {
        cost("kotlin-broadcast", "receipts-n$readers", "receipt", VALUES, readers) { count ->
            received(readers, 1, count)
        }
    }
}

@ExperimentalCoroutinesApi
private fun receiptsOfBlocks() {
    for (readers in listOf(1, 4, 8)) {
        cost("kotlin-broadcast-by1", "receipts-by16-n$readers", "receipt", VALUES, readers) { count ->
            received(readers, 16, count)
        }
    }
}

/** So many values are emitted before each reader takes them. */
@ExperimentalCoroutinesApi
private fun received(readers: Int, atOnce: Int, count: Long): Long {
    val channel = BroadcastChannel<Long>(64)
    val subscriptions = List(readers) { channel.openSubscription() }
    var sum = 0L
    val time = timed {
        var first = 0L
        while (first < count) {
            val end = minOf(count, first + atOnce)
            for (value in first until end) channel.offer(value)
            for (subscription in subscriptions) {
                for (value in first until end) sum += subscription.poll()!!
            }
            first = end
        }
    }
    Figures.check(sum == Figures.sumBelow(count) * readers, "kotlin: a value was lost")
    return time
}

private fun sending(channel: SendChannel<Long>, count: Long) = job {
    runBlocking { for (value in 0 until count) channel.send(value) }
    channel.close()
    0L
}

private fun summing(channel: ReceiveChannel<Long>) = job {
    var sum = 0L
    runBlocking { for (value in channel) sum += value }
    sum
}

@ExperimentalCoroutinesApi
private fun fanOut(peer: String, scenario: String, vararg all: Int) {
    for (readers in all) {
        val once = LongFunction<Long> { count ->
            val channel = BroadcastChannel<Long>(1024)
            val summing = List(readers) { summing(channel.openSubscription()) }
            val race = Race.of(listOf(sending(channel, count)) + summing)
            race.results.drop(1).forEach { checkSum(it, count) }
            race.all
        }
        Figures.rate(peer, scenario + readers, "values", VALUES, once)
    }
}

@ExperimentalCoroutinesApi
@ObsoleteCoroutinesApi
private fun state() {
    val peer = "kotlin-conflated"
    cost(peer, "state-alone", "set", VALUES, 1) { count ->
        val state = ConflatedBroadcastChannel(0L)
        timed { for (value in 0 until count) state.offer(value) }
    }
    cost(peer, "state-alone", "read", VALUES, 1) { count ->
        val state = ConflatedBroadcastChannel(7L)
        var sum = 0L
        val time = timed { for (i in 0 until count) sum += state.value }
        Figures.check(sum == 7 * count, "kotlin: a wrong value")
        time
    }
    cost(peer, "state-alone", "set+ask", VALUES, 1) { count ->
        val state = ConflatedBroadcastChannel(0L)
        val subscription = state.openSubscription()
        subscription.poll()
        timed {
            for (value in 1..count) {
                state.offer(value)
                Figures.check(subscription.poll() == value, "kotlin: not new")
            }
        }
    }
    for (collectors in 1..2) asked(peer, collectors)
}

@ExperimentalCoroutinesApi
@ObsoleteCoroutinesApi
private fun asked(peer: String, collectors: Int) {
    val runs = Figures.repeats(VALUES, LongFunction { count ->
        val state = ConflatedBroadcastChannel(0L)
        val over = AtomicBoolean()
        val setting = job {
            for (value in 1..count) state.offer(value)
            over.set(true)
            0L
        }
        Race.of(listOf(setting) + List(collectors) { asking(state.openSubscription(), over) })
    })
    val sets = runs.results().map { it.first.toDouble() / runs.count() }
    Figures.report(Figures.Figure(peer, "state-c$collectors", "set", "ns"), sets.toDoubleArray(), runs.count())
    val asks = runs.results().map { it.all * collectors.toDouble() / maxOf(1L, it.sumOfOthers()) }
    Figures.report(Figures.Figure(peer, "state-c$collectors", "ask", "ns"), asks.toDoubleArray(), runs.count())
}

private fun asking(subscription: ReceiveChannel<Long>, over: AtomicBoolean) = job {
    var asks = 0L
    var last = -1L
    while (asks % BATCH != 0L || !over.get()) {
        val now = subscription.poll()
        if (now != null) {
            Figures.check(now > last, "kotlin: not in order")
            last = now
        }
        asks++
    }
    asks
}

@ExperimentalCoroutinesApi
private fun churn() {
    for (live in listOf(1, 64, 512)) {
        cost("kotlin-broadcast", "churn-n$live", "turn", 1_000_000L, 1) { count -> cameAndWent(live, count) }
    }
}

/** A reader comes and goes beside so many that stay, so often. */
@ExperimentalCoroutinesApi
private fun cameAndWent(live: Int, count: Long): Long {
    val channel = BroadcastChannel<Long>(1)
    val all = List(live) { channel.openSubscription() }
    val time = timed {
        for (i in 0 until count) channel.openSubscription().cancel()
    }
    for (value in 1L..2L) {
        Figures.check(channel.offer(value), "kotlin: a guest stayed")
        Figures.check(all.all { it.poll() == value }, "kotlin: a value was lost")
    }
    return time
}

private fun split() {
    for (capacity in listOf(4, 64, 1024)) {
        cost("kotlin-channel-wait", "split-k$capacity", "value", 5_000_000L, 1) { count ->
            val channel = Channel<Long>(capacity)
            val race = Race.of(listOf(sending(channel, count), summing(channel)))
            checkSum(race.results[1], count)
            race.all
        }
    }
}

@ObsoleteCoroutinesApi
@ExperimentalCoroutinesApi
private fun cold() {
    element("kotlin-sequence", "cold-chain") { count ->
        (0 until count).asSequence().map { it + 1 }.filter { it % 2 == 0L }.fold(0L) { sum, value -> sum + value }
    }
    element("kotlin-produce", "cold-chain") { count ->
        runBlocking {
            val range = produce<Long> { for (value in 0 until count) send(value) }
            range.map { it + 1 }.filter { it % 2 == 0L }.fold(0L) { sum, value -> sum + value }
        }
    }
    element("kotlin-sequence", "cold-zip") { count ->
        val pairs = (0 until count).asSequence().zip((1..count).asSequence()) { a, b -> (a * 3) xor b }
        pairs.fold(0L) { sum, value -> sum + value }
    }
}

private fun element(peer: String, scenario: String, run: (Long) -> Long) =
    cost(peer, scenario, "element", 10_000_000L, 1) { count ->
        var sum = 0L
        val time = timed { sum = run(count) }
        Figures.check(sum != 0L, "kotlin: no sum")
        time
    }

@ExperimentalCoroutinesApi
@ObsoleteCoroutinesApi
fun main(words: Array<String>) {
    val scenarios = mapOf(
        "receipts" to Runnable { receipts() },
        "receipts-by16" to Runnable { receiptsOfBlocks() },
        "fan-out" to Runnable { fanOut("kotlin-broadcast-wait", "fan-out-n", 1, 2, 4, 16, 32) },
        "fan-out-by64" to Runnable { fanOut("kotlin-broadcast-wait-by1", "fan-out-by64-n", 1, 2, 4) },
        "state" to Runnable { state() },
        "split" to Runnable { split() },
        "cold" to Runnable { cold() },
        "ping-pong" to Runnable { pingPong() },
        "wake" to Runnable { wake() },
        "asleep" to Runnable { asleep() },
        "churn" to Runnable { churn() }
    )
    Figures.main(words, scenarios)
}
