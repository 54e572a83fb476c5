// Goroutines, inlined calls, generics, methods and closures.
package main

import (
	"fmt"
	"sort"
	"strings"
	"sync"
	"sync/atomic"
)

type number interface{ ~int | ~int64 | ~float64 }

func most[T number](one, other T) T {
	if one > other {
		return one
	}
	return other
}

type stack[T any] struct{ items []T }

func (s *stack[T]) push(it T)   { s.items = append(s.items, it) }
func (s *stack[T]) last() T     { return s.items[len(s.items)-1] }
func (s *stack[T]) pop() (it T) { it = s.last(); s.items = s.items[:len(s.items)-1]; return }

type shape interface{ area() int }
type square struct{ side int }
type box struct {
	square
	high int
}

func (s square) area() int { return twice(s.side) * s.side / 2 }
func (b *box) volume() int { return b.area() * b.high }
func twice(it int) int     { return it + same(it) }
func same(it int) int      { return most(it, it-1) }

type tally struct {
	sum  uint64
	hits atomic.Int64
}

var counts [4]tally

func (t *tally) add(by uint64) { t.sum += by; t.hits.Add(1) }

//go:noinline
func work(own *tally, rounds int) {
	for n := 0; n < rounds; n++ {
		own.add(uint64(twice(n)))
	}
}

func made() func(int) int {
	sum := 0
	return func(it int) int {
		defer func() { sum += twice(it) }()
		sum += most(it, 3)
		return sum
	}
}

func main() {
	var all sync.WaitGroup
	var lock sync.Mutex
	seen := map[string]int{}
	for i := range counts {
		all.Add(1)
		go func(own *tally) {
			defer all.Done()
			work(own, 20000)
			lock.Lock()
			seen[strings.Repeat("x", i)]++
			lock.Unlock()
		}(&counts[i])
	}
	all.Wait()
	own := &stack[string]{}
	own.push("a")
	ints := &stack[int]{}
	ints.push(most(1, 2))
	next := made()
	var it shape = &box{square{3}, 4}
	list := []int{3, 1, 2}
	sort.Slice(list, func(i, j int) bool { return list[i] < list[j] })
	fmt.Println(own.pop(), ints.pop(), next(4), it.area(), (&box{square{2}, 3}).volume(), most(1.5, 2.5), len(seen), list)
}
