// Go's channels, one for each reader: peers SCENARIO..
package main

import (
	"fmt"
	"os"
	"time"
)

const (
	peer   = "go-channel-wait"
	values = 2_000_000
)

func main() {
	scenarios := map[string]func(){
		"receipts":      func() { receipts(peer, "receipts-n", 1) },
		"receipts-by16": func() { receipts(peer+"-by1", "receipts-by16-n", 16) },
		"fan-out":       func() { fanOut(peer, "fan-out-n", 1, 2, 4, 16, 32) },
		"fan-out-by64":  func() { fanOut(peer+"-by1", "fan-out-by64-n", 1, 2, 4) },
		"lossy":         lossy,
		"split":         split,
		"ping-pong":     pingPong,
		"wake":          wake,
		"asleep":        asleep,
	}
	for _, word := range os.Args[1:] {
		if measure, known := scenarios[word]; known {
			measure()
		}
	}
}

func channels(readers, capacity int) []chan uint64 {
	all := make([]chan uint64, readers)
	for i := range all {
		all[i] = make(chan uint64, capacity)
	}
	return all
}

// receipts emits atOnce values before each reader takes them.
func receipts(peer, name string, atOnce int64) {
	for _, readers := range []int{1, 4, 8} {
		scenario := fmt.Sprintf("%s%d", name, readers)
		cost(peer, scenario, "receipt", values, int64(readers), func(count int64) time.Duration {
			start := time.Now()
			sum := sumOnOneThread(readers, atOnce, count)
			taken := time.Since(start)
			check(sum == sumBelow(count)*uint64(readers), "a value was lost")
			return taken
		})
	}
}

func sumOnOneThread(readers int, atOnce, count int64) uint64 {
	all := channels(readers, 64)
	sum := uint64(0)
	for first, end := int64(0), int64(0); first < count; first = end {
		end = first + atOnce
		if end > count {
			end = count
		}
		for value := first; value < end; value++ {
			sendTo(all, uint64(value))
		}
		for _, channel := range all {
			for value := first; value < end; value++ {
				sum += <-channel
			}
		}
	}
	return sum
}

func sendTo(all []chan uint64, value uint64) {
	for _, channel := range all {
		channel <- value
	}
}

func closeAll(all []chan uint64) {
	for _, channel := range all {
		close(channel)
	}
}

// sumOf tells the sum of what a channel gives until it is closed.
func sumOf(channel chan uint64, sums chan uint64) {
	sum := uint64(0)
	for value := range channel {
		sum += value
	}
	sums <- sum
}

func fanOut(peer, name string, all ...int) {
	for _, readers := range all {
		scenario := fmt.Sprintf("%s%d", name, readers)
		rate(peer, scenario, "values", values, func(count int64) time.Duration { return timeOf(readers, 1024, count) })
	}
}

func split() {
	for _, capacity := range []int{4, 64, 1024} {
		scenario := fmt.Sprintf("split-k%d", capacity)
		cost(peer, scenario, "value", 5_000_000, 1, func(count int64) time.Duration { return timeOf(1, capacity, count) })
	}
}

func timeOf(readers, capacity int, count int64) time.Duration {
	all := channels(readers, capacity)
	sums := make(chan uint64, readers)
	start := time.Now()
	for _, channel := range all {
		go sumOf(channel, sums)
	}
	for value := int64(0); value < count; value++ {
		sendTo(all, uint64(value))
	}
	closeAll(all)
	for range all {
		check(<-sums == sumBelow(count), "a value was lost")
	}
	return time.Since(start)
}
