package main

import (
	"runtime"
	"sync"
	"time"
)

// talks is a peer by which goroutines wake each other. With threads each has a thread of its own.
type talks struct {
	peer    string
	threads bool
}

var allTalks = []talks{{peer, false}, {"go-channel-threads-wait", true}}

// begin runs a job in a goroutine of its own. A goroutine that ends locked takes its thread with it.
func (t talks) begin(job func(), left *sync.WaitGroup) {
	left.Add(1)
	go func() {
		if t.threads {
			runtime.LockOSThread()
		}
		job()
		left.Done()
	}()
}

const (
	turns = 100_000
	// beside busy threads a turn may take some milliseconds
	busyTurns = 100
)

// pingPong: two answer each other, and each sleeps until the other's value comes.
func pingPong() {
	byAllTalks("ping-pong-free", turns)
	besideBusy(func() { byAllTalks("ping-pong-busy", busyTurns) })
}

func byAllTalks(scenario string, most int64) {
	for _, t := range allTalks {
		cost(t.peer, scenario, "turn", most, 1, t.turns)
	}
}

func (t talks) turns(count int64) time.Duration {
	questions, answers := make(chan uint64, 1), make(chan uint64, 1)
	inOrder := int64(0)
	var taken time.Duration
	var left sync.WaitGroup
	t.begin(func() { inOrder = reply(questions, answers, count) }, &left)
	t.begin(func() { taken = ask(questions, answers, count) }, &left)
	left.Wait()
	check(inOrder == count, "a value was lost")
	return taken
}

func ask(questions, answers chan uint64, count int64) time.Duration {
	start := time.Now()
	for value := uint64(1); value <= uint64(count); value++ {
		questions <- value
		check(<-answers == value, "a wrong answer")
	}
	return time.Since(start)
}

// reply tells how many values came in order.
func reply(questions, answers chan uint64, count int64) int64 {
	inOrder := int64(0)
	for value := uint64(1); value <= uint64(count); value++ {
		if <-questions == value {
			inOrder++
		}
		answers <- value
	}
	return inOrder
}
