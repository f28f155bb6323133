package main

import (
	"fmt"
	"sync"
	"sync/atomic"
	"time"
)

const (
	emissions = 100
	// after so long all readers sleep
	rest = 500 * time.Microsecond
)

// wake: one emission to readers that all sleep, from its begin until the last of them has it.
func wake() {
	for _, readers := range []int{16, 64} {
		scenario := fmt.Sprintf("wake-n%d", readers)
		for _, t := range allTalks {
			t, readers := t, readers
			cost(t.peer, scenario, "all", emissions, 1, func(count int64) time.Duration { return t.emitted(readers, count) })
		}
	}
}

// heard is what the readers say: how many values all of them heard, and when one was heard last.
type heard struct {
	epoch  time.Time
	values atomic.Int64
	last   atomic.Int64
}

func (h *heard) now() int64 { return time.Since(h.epoch).Nanoseconds() }

func (h *heard) one() {
	now := h.now()
	for last := h.last.Load(); last < now && !h.last.CompareAndSwap(last, now); last = h.last.Load() {
	}
	h.values.Add(1)
}

// restUntil rests until so many values were heard, and then gives when the last one was.
func (h *heard) restUntil(values int64) int64 {
	for h.values.Load() < values {
		time.Sleep(rest)
	}
	return h.last.Load()
}

// emitted tells what so many emissions take together, without the rests between them.
func (t talks) emitted(readers int, count int64) time.Duration {
	all := channels(readers, 1)
	h := &heard{epoch: time.Now()}
	var left sync.WaitGroup
	for _, channel := range all {
		channel := channel
		t.begin(func() { hear(channel, count, h) }, &left)
	}
	nanoseconds := int64(0)
	for value := int64(1); value <= count; value++ {
		time.Sleep(rest)
		start := h.now()
		sendTo(all, uint64(value))
		nanoseconds += h.restUntil(value*int64(readers)) - start
	}
	left.Wait()
	return time.Duration(nanoseconds)
}

func hear(channel chan uint64, count int64, h *heard) {
	for value := uint64(1); value <= uint64(count); value++ {
		check(<-channel == value, "a value was lost")
		h.one()
	}
}
