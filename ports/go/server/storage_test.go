package server

import (
	"fmt"
	"os"
	"strings"
	"testing"
)

func opened(t *testing.T, path string) *File {
	store, err := OpenFile(path)
	if err != nil {
		t.Fatal(err)
	}
	return store
}

func put(t *testing.T, store *File, key, text string) {
	if err := store.Transact(func(tx Tx) error { tx.Put(key, text); return nil }); err != nil {
		t.Fatal(err)
	}
}

func listed(store *File) (found []Pair) {
	store.Transact(func(tx Tx) error { found = tx.List(""); return nil })
	return found
}

func want(t *testing.T, store *File, wanted ...Pair) {
	if found := listed(store); fmt.Sprint(found) != fmt.Sprint(wanted) {
		t.Fatalf("%v, and not %v", found, wanted)
	}
	store.file.Close()
}

func TestWhatIsNotDurableIsCutOff(t *testing.T) {
	path := t.TempDir() + "/store"
	store := opened(t, path)
	put(t, store, "a", "1")
	put(t, store, "b", "2\n")
	if err := store.Transact(func(tx Tx) error { tx.Put("c", "3"); return fmt.Errorf("no") }); err == nil {
		t.Fatal("a refused transaction is taken")
	}
	store.Transact(func(tx Tx) error { tx.Delete("a"); return nil })
	want(t, store, Pair{"b", "2\n"})
	whole, _ := os.ReadFile(path)
	last := strings.LastIndex(strings.TrimSuffix(string(whole), "\n"), "\n") + 1
	for length := last; length < len(whole); length++ {
		os.WriteFile(path, whole[:length], 0o600)
		want(t, opened(t, path), Pair{"a", "1"}, Pair{"b", "2\n"})
	}
}

func TestADamagedLineIsRefused(t *testing.T) {
	path := t.TempDir() + "/store"
	store := opened(t, path)
	put(t, store, "a", "1")
	put(t, store, "b", "2")
	want(t, store, Pair{"a", "1"}, Pair{"b", "2"})
	whole, _ := os.ReadFile(path)
	whole[10] ^= 1
	os.WriteFile(path, whole, 0o600)
	if _, err := OpenFile(path); err == nil {
		t.Fatal("it is opened")
	}
}

func TestTheFileIsWrittenAnew(t *testing.T) {
	path := t.TempDir() + "/store"
	store := opened(t, path)
	for turn := 0; turn < 40; turn++ {
		put(t, store, "a", strings.Repeat(fmt.Sprint(turn%10), 50000))
	}
	put(t, store, "b", "2")
	if store.length > 1<<20 {
		t.Fatalf("it has %d bytes", store.length)
	}
	if _, err := OpenFile(path); err == nil {
		t.Fatal("it is opened twice")
	}
	found := listed(store)
	want(t, store, found...)
	want(t, opened(t, path), found...)
}
