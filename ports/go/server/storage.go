package server

import (
	"bufio"
	"encoding/json"
	"fmt"
	"hash/crc32"
	"io"
	"os"
	"path/filepath"
	"sort"
	"strings"
	"sync"
	"syscall"
)

// Pair is a key with its text.
type Pair struct{ Key, Text string }

// Tx is what may be done in a transaction. Keys of the frame begin with "frame/"; all others are the service's. Texts are UTF-8.
type Tx interface {
	Get(key string) (string, bool)
	Put(key, text string)
	Delete(key string)
	// List returns the keys that begin so, in their order.
	List(prefix string) []Pair
}

// Store keeps what has to last.
type Store interface {
	// Transact runs work as a transaction, once no other one runs. It is durable when Transact returns nil; if work returns an error, which
	// Transact returns, nothing is changed.
	Transact(work func(Tx) error) error
}

// File is a store in one file, of which it has a copy in memory: each transaction is a line that is appended and synced.
type File struct {
	mutex  sync.Mutex
	path   string
	file   *os.File
	texts  map[string]string
	length int64
	bytes  int64
	broken error
}

// change is a line of the file: what a transaction has put (none: deleted).
type change map[string]*string

// OpenFile opens a store, and makes it if there is none. A last line that is not whole was not durable, and is cut off.
func OpenFile(path string) (*File, error) {
	file, err := os.OpenFile(path, os.O_RDWR|os.O_CREATE, 0o600)
	if err != nil {
		return nil, err
	}
	if err := syscall.Flock(int(file.Fd()), syscall.LOCK_EX|syscall.LOCK_NB); err != nil {
		return nil, fmt.Errorf("%s: another process has it: %w", path, err)
	}
	store := &File{path: path, file: file, texts: map[string]string{}}
	if err := store.read(); err != nil {
		return nil, err
	}
	if err := file.Truncate(store.length); err != nil {
		return nil, err
	}
	if _, err := file.Seek(store.length, io.SeekStart); err != nil {
		return nil, err
	}
	return store, syncAll(file, filepath.Dir(path))
}

// syncAll makes a file and its name durable.
func syncAll(file *os.File, folder string) error {
	if err := file.Sync(); err != nil {
		return err
	}
	at, err := os.Open(folder)
	if err != nil {
		return err
	}
	defer at.Close()
	return at.Sync()
}

// read applies all whole lines.
func (store *File) read() error {
	lines, isTorn := bufio.NewReader(store.file), false
	for {
		line, err := lines.ReadString('\n')
		if err == io.EOF {
			return nil
		}
		if err != nil {
			return err
		}
		told, ok := parsed(line)
		if ok && isTorn {
			return fmt.Errorf("%s: a line before the last one is damaged", store.path)
		}
		if isTorn = !ok; ok {
			store.apply(told)
			store.length += int64(len(line))
		}
	}
}

// parsed reads a line: eight digits of its sum, a space, and the change.
func parsed(line string) (change, bool) {
	sum, text, ok := strings.Cut(strings.TrimSuffix(line, "\n"), " ")
	var told change
	if !ok || sum != summed([]byte(text)) || json.Unmarshal([]byte(text), &told) != nil {
		return nil, false
	}
	return told, true
}

func summed(text []byte) string { return fmt.Sprintf("%08x", crc32.ChecksumIEEE(text)) }

func lineOf(told change) ([]byte, error) {
	text, err := json.Marshal(told)
	return []byte(summed(text) + " " + string(text) + "\n"), err
}

func (store *File) apply(told change) {
	for key, text := range told {
		store.bytes -= int64(len(key) + len(store.texts[key]))
		delete(store.texts, key)
		if text != nil {
			store.texts[key] = *text
			store.bytes += int64(len(key) + len(*text))
		}
	}
}

// Transact runs a transaction. After a fault of the disk the store takes no more.
func (store *File) Transact(work func(Tx) error) error {
	store.mutex.Lock()
	defer store.mutex.Unlock()
	if store.broken != nil {
		return store.broken
	}
	tx := &fileTx{store, change{}}
	if err := work(tx); err != nil || len(tx.told) == 0 {
		return err
	}
	line, err := lineOf(tx.told)
	if err != nil {
		return err
	}
	if _, err = store.file.Write(line); err == nil {
		err = store.file.Sync()
	}
	if err != nil {
		store.broken = fmt.Errorf("%s: %w", store.path, err)
		return store.broken
	}
	store.apply(tx.told)
	store.length += int64(len(line))
	if store.length > 1<<20 && store.length > 8*store.bytes {
		store.broken = store.compact()
	}
	return store.broken
}

// compact writes the file anew, with what there is.
func (store *File) compact() error {
	all := change{}
	for key := range store.texts {
		text := store.texts[key]
		all[key] = &text
	}
	line, err := lineOf(all)
	if err != nil {
		return err
	}
	file, err := os.OpenFile(store.path+".new", os.O_RDWR|os.O_CREATE|os.O_TRUNC, 0o600)
	if err != nil {
		return err
	}
	if err := syscall.Flock(int(file.Fd()), syscall.LOCK_EX|syscall.LOCK_NB); err != nil {
		return err
	}
	if _, err := file.Write(line); err != nil {
		return err
	}
	if err := file.Sync(); err != nil {
		return err
	}
	if err := os.Rename(store.path+".new", store.path); err != nil {
		return err
	}
	store.file.Close()
	store.file, store.length = file, int64(len(line))
	return syncAll(file, filepath.Dir(store.path))
}

// fileTx is a transaction with what it has changed.
type fileTx struct {
	store *File
	told  change
}

func (tx *fileTx) Get(key string) (string, bool) {
	if text, ok := tx.told[key]; ok {
		if text == nil {
			return "", false
		}
		return *text, true
	}
	text, ok := tx.store.texts[key]
	return text, ok
}

func (tx *fileTx) Put(key, text string) { tx.told[key] = &text }

func (tx *fileTx) Delete(key string) { tx.told[key] = nil }

func (tx *fileTx) List(prefix string) (found []Pair) {
	for key, text := range tx.store.texts {
		if _, ok := tx.told[key]; !ok && strings.HasPrefix(key, prefix) {
			found = append(found, Pair{key, text})
		}
	}
	for key, text := range tx.told {
		if text != nil && strings.HasPrefix(key, prefix) {
			found = append(found, Pair{key, *text})
		}
	}
	sort.Slice(found, func(i, j int) bool { return found[i].Key < found[j].Key })
	return found
}
