package main

import (
	"fmt"
	"runtime"
	"time"
)

// asleep: on one thread, emissions of many goroutines wait for one place. A value is received, the emission whose turn
// it is finds room, and its goroutine begins anew.
func asleep() {
	before := runtime.GOMAXPROCS(1)
	for _, emitters := range []int64{10, 100, 1000} {
		emitters := emitters
		scenario := fmt.Sprintf("asleep-n%d", emitters)
		cost(peer, scenario, "receipt", 100_000, 1, func(count int64) time.Duration {
			return timeBesideAsleep(emitters, count)
		})
	}
	runtime.GOMAXPROCS(before)
}

// timeBesideAsleep has as many values more than it times as there are emitters: all of them have one to the end.
func timeBesideAsleep(emitters, count int64) time.Duration {
	all := count + emitters
	channel := make(chan uint64, 1)
	channel <- 0
	var next []uint64
	for begin := int64(1); begin <= emitters; begin++ {
		next = append(next, uint64(begin-1))
		go sendEach(channel, begin, emitters, all)
		runtime.Gosched()
	}
	start := time.Now()
	sum := sumInTurns(channel, next, count)
	taken := time.Since(start)
	sum += sumInTurns(channel, next, emitters)
	check(sum == sumBelow(all), "a value was lost")
	return taken
}

// sendEach sends every so many-th number below end.
func sendEach(channel chan uint64, begin, step, end int64) {
	for value := begin; value < end; value += step {
		channel <- uint64(value)
	}
}

// sumInTurns takes so many values, and lets who found room begin anew after each. The values of one emitter come in
// order; among the emitters the order is not Go's to keep.
func sumInTurns(channel chan uint64, next []uint64, count int64) uint64 {
	sum := uint64(0)
	emitters := uint64(len(next))
	for i := int64(0); i < count; i++ {
		value := <-channel
		emitter := value % emitters
		check(value == next[emitter], "not in order")
		next[emitter] += emitters
		sum += value
		runtime.Gosched()
	}
	return sum
}
