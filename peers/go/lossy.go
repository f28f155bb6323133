package main

import (
	"fmt"
	"time"
)

// losses is what one repeat gave.
type losses struct {
	emission, receipts, kept float64
}

func lossy() {
	for _, readers := range []int{1, 2, 4} {
		scenario := fmt.Sprintf("lossy-n%d", readers)
		count, all := repeats(values, func(count int64) losses { return lossesOf(readers, count) })
		var emissions, receipts, kept []float64
		for _, one := range all {
			emissions = append(emissions, one.emission)
			receipts = append(receipts, one.receipts)
			kept = append(kept, one.kept)
		}
		report(figure{peer, scenario, "emission", "ns"}, emissions, count)
		report(figure{peer, scenario, "receipts", "M/s"}, receipts, count)
		report(figure{peer, scenario, "kept", "%"}, kept, count)
	}
}

func lossesOf(readers int, count int64) losses {
	all := channels(readers, 1024)
	counts := make(chan int64, readers)
	start := time.Now()
	for _, channel := range all {
		go countOf(channel, counts)
	}
	for value := int64(0); value < count; value++ {
		for _, channel := range all {
			sendDropping(channel, uint64(value))
		}
	}
	emitted := time.Since(start)
	closeAll(all)
	received := float64(0)
	for range all {
		received += float64(<-counts)
	}
	whole := time.Since(start)
	return losses{
		emission: float64(emitted.Nanoseconds()) / float64(count),
		receipts: received * 1e3 / float64(whole.Nanoseconds()),
		kept:     100 * received / float64(count) / float64(readers),
	}
}

// countOf tells how many values a channel gives until it is closed.
func countOf(channel chan uint64, counts chan int64) {
	count := int64(0)
	for range channel {
		count++
	}
	counts <- count
}

// sendDropping drops the oldest by taking it out again, as is usual in Go.
func sendDropping(channel chan uint64, value uint64) {
	for {
		select {
		case channel <- value:
			return
		default:
		}
		select {
		case <-channel:
		default:
		}
	}
}
