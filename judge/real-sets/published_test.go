// Package published judges sets built on Go's standard library and on golang-lru. The environment variable TESTS is
// the number of tests for each set.
package published

import (
	"errors"
	"fmt"
	"os"
	"strconv"
	"sync"
	"testing"

	lru "github.com/hashicorp/golang-lru"
	"published/judge"
)

type syncMap struct{ keys sync.Map }

func newSyncMap() *syncMap { return &syncMap{} }

func (s *syncMap) Add(key uint32) bool { _, was := s.keys.LoadOrStore(key, true); return !was }

func (s *syncMap) Remove(key uint32) bool { _, was := s.keys.LoadAndDelete(key); return was }

func (s *syncMap) Contains(key uint32) bool { _, is := s.keys.Load(key); return is }

// cache is a cache that is large enough for all keys.
type cache struct{ *lru.Cache }

func newCache() *cache {
	made, err := lru.New(1 << 20)
	if err != nil {
		panic(err)
	}
	return &cache{made}
}

func (c *cache) Add(key uint32) bool { was, _ := c.ContainsOrAdd(key, true); return !was }

func (c *cache) Remove(key uint32) bool { return c.Cache.Remove(key) }

func (c *cache) Contains(key uint32) bool { return c.Cache.Contains(key) }

func judged[S judge.Set](t *testing.T, name string, newSet func() S) {
	tests, _ := strconv.Atoi(os.Getenv("TESTS"))
	refused, shortest := 0, ""
	for i := 0; i < tests; i++ {
		how := judge.DefaultOptions()
		how.Seed = int64(1 + 1000*i)
		_, err := judge.Judge(newSet, how)
		var failed *judge.NotLinearizable
		if errors.As(err, &failed) {
			if refused++; refused == 1 || len(failed.Said) < len(shortest) {
				shortest = failed.Said
			}
			os.Remove(failed.File)
		} else if err != nil {
			t.Fatal(err)
		}
	}
	fmt.Printf("| %s | %d of %d |\n", name, refused, tests)
	if refused > 0 {
		fmt.Fprintf(os.Stderr, "%s:\n%s\n", name, shortest)
	}
}

func TestPublished(t *testing.T) {
	judged(t, "Go sync.Map", newSyncMap)
	judged(t, "golang-lru Cache", newCache)
}
