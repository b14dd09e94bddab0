package main

import (
	"bytes"
	"errors"
	"fmt"
	"math/rand"
	"os"
	"path/filepath"
	"sort"
	"strconv"

	bolt "go.etcd.io/bbolt"
)

// Everything that is done with a file in which `check --for-bbolt` finds nothing: on copies of it in a folder. After each
// step bbolt's own check and the content are compared, and again when the copy was opened anew.
func tryAll(seed, name, folder string) error {
	from, err := strconv.ParseInt(seed, 10, 64)
	if err != nil {
		return err
	}
	for _, order := range []string{"first", "last", "random", "at once"} {
		step := func(db *bolt.DB) error { return drain(db, order, rand.New(rand.NewSource(from))) }
		if err := onCopy(name, folder, step); err != nil {
			return fmt.Errorf("drained, %s: %w", order, err)
		}
	}
	fill := func(db *bolt.DB) error { return fillAll(db, rand.New(rand.NewSource(from))) }
	if err := onCopy(name, folder, fill); err != nil {
		return fmt.Errorf("filled: %w", err)
	}
	return copied(name, folder)
}

// onCopy does a step on a copy of the file, and opens the copy anew.
func onCopy(name, folder string, step func(*bolt.DB) error) error {
	tried := filepath.Join(folder, "tried.db")
	data, err := os.ReadFile(name)
	if err != nil {
		return err
	}
	if err := os.WriteFile(tried, data, 0o600); err != nil {
		return err
	}
	db, err := open(tried, false)
	if err != nil {
		return err
	}
	if err := step(db); err != nil {
		return err
	}
	held, err := contentOf(db)
	if err != nil {
		return err
	}
	if err := db.Close(); err != nil {
		return err
	}
	return verifyFile(tried, held)
}

// ---- what a file holds

// A holding is what a bucket holds: values, and buckets.
type holding struct {
	sequence uint64
	values   map[string][]byte
	buckets  map[string]*holding
}

func newHolding() *holding {
	return &holding{values: map[string][]byte{}, buckets: map[string]*holding{}}
}

// names are its keys in order.
func (held *holding) names() []string {
	names := make([]string, 0, len(held.values)+len(held.buckets))
	for name := range held.values {
		names = append(names, name)
	}
	for name := range held.buckets {
		names = append(names, name)
	}
	sort.Strings(names)
	return names
}

func (held *holding) isEmpty() bool { return len(held.values)+len(held.buckets) == 0 }

func (held *holding) same(other *holding) bool {
	if held.sequence != other.sequence || len(held.values) != len(other.values) || len(held.buckets) != len(other.buckets) {
		return false
	}
	for name, value := range held.values {
		if found, there := other.values[name]; !there || !bytes.Equal(value, found) {
			return false
		}
	}
	for name, inside := range held.buckets {
		if found, there := other.buckets[name]; !there || !inside.same(found) {
			return false
		}
	}
	return true
}

func holdingOf(bucket *bolt.Bucket) *holding {
	held := newHolding()
	held.sequence = bucket.Sequence()
	bucket.ForEach(func(name, value []byte) error {
		if value == nil {
			held.buckets[string(name)] = holdingOf(bucket.Bucket(name))
		} else {
			held.values[string(name)] = append([]byte{}, value...)
		}
		return nil
	})
	return held
}

// contentOf is what the buckets of the root bucket hold.
func contentOf(db *bolt.DB) (*holding, error) {
	held := newHolding()
	err := db.View(func(tx *bolt.Tx) error {
		return tx.ForEach(func(name []byte, bucket *bolt.Bucket) error {
			held.buckets[string(name)] = holdingOf(bucket)
			return nil
		})
	})
	return held, err
}

// verify compares what the file holds, and asks for bbolt's own check.
func verify(db *bolt.DB, held *holding) error {
	err := db.View(func(tx *bolt.Tx) error {
		var first error
		for err := range tx.Check() {
			if first == nil {
				first = err
			}
		}
		return first
	})
	if err != nil {
		return err
	}
	found, err := contentOf(db)
	if err == nil && !found.same(held) {
		err = errors.New("the content isn't what was written")
	}
	return err
}

func verifyFile(name string, held *holding) error {
	db, err := open(name, false)
	if err != nil {
		return err
	}
	defer db.Close()
	return verify(db, held)
}

// ---- draining

const verifiedEach = 16

// drain deletes key after key, those of nested buckets too, and each bucket when it is empty.
func drain(db *bolt.DB, order string, random *rand.Rand) error {
	held, err := contentOf(db)
	if err != nil {
		return err
	}
	pick := map[string]func(int) int{
		"first":   func(int) int { return 0 },
		"last":    func(count int) int { return count - 1 },
		"random":  random.Intn,
		"at once": random.Intn,
	}[order]
	if order == "at once" {
		err = db.Update(func(tx *bolt.Tx) error {
			for !held.isEmpty() {
				if err := deleteOne(tx, held, pick); err != nil {
					return err
				}
			}
			return nil
		})
	}
	for step := 1; err == nil && !held.isEmpty(); step++ {
		err = db.Update(func(tx *bolt.Tx) error { return deleteOne(tx, held, pick) })
		if err == nil && step%verifiedEach == 0 {
			err = verify(db, held)
		}
	}
	if err != nil {
		return err
	}
	return verify(db, held)
}

// deleteOne deletes a value, or an empty bucket, in the bucket that it comes to.
func deleteOne(tx *bolt.Tx, held *holding, pick func(int) int) error {
	names := held.names()
	name := names[pick(len(names))]
	inside := held.buckets[name]
	if inside.isEmpty() {
		delete(held.buckets, name)
		return tx.DeleteBucket([]byte(name))
	}
	return deleteIn(tx.Bucket([]byte(name)), inside, pick)
}

func deleteIn(bucket *bolt.Bucket, held *holding, pick func(int) int) error {
	names := held.names()
	name := names[pick(len(names))]
	inside, isBucket := held.buckets[name]
	switch {
	case !isBucket:
		delete(held.values, name)
		return bucket.Delete([]byte(name))
	case inside.isEmpty():
		delete(held.buckets, name)
		return bucket.DeleteBucket([]byte(name))
	}
	return deleteIn(bucket.Bucket([]byte(name)), inside, pick)
}

// ---- filling

const (
	fillSteps = 24
	fillPuts  = 20
	fillBytes = 3000
)

// fillAll puts values and buckets into the buckets of a file.
func fillAll(db *bolt.DB, random *rand.Rand) error {
	held, err := contentOf(db)
	for step := 1; err == nil && step <= fillSteps; step++ {
		err = db.Update(func(tx *bolt.Tx) error { return fillOnce(tx, held, random) })
		if err == nil && step%6 == 0 {
			err = verify(db, held)
		}
	}
	return err
}

func fillOnce(tx *bolt.Tx, held *holding, random *rand.Rand) error {
	names := held.names()
	if len(names) == 0 || random.Intn(6) == 0 {
		name := string(key(random.Intn(1000)))
		if held.buckets[name] == nil {
			held.buckets[name] = newHolding()
		}
		_, err := tx.CreateBucketIfNotExists([]byte(name))
		return err
	}
	name := names[random.Intn(len(names))]
	return fillIn(tx.Bucket([]byte(name)), held.buckets[name], random)
}

// fillIn puts into a bucket, or into one that it holds.
func fillIn(bucket *bolt.Bucket, held *holding, random *rand.Rand) error {
	for _, name := range held.names() {
		if held.buckets[name] != nil && random.Intn(2) == 0 {
			return fillIn(bucket.Bucket([]byte(name)), held.buckets[name], random)
		}
	}
	if random.Intn(4) == 0 {
		name := fmt.Sprintf("inside-%d", random.Intn(30))
		if held.buckets[name] == nil && held.values[name] == nil {
			held.buckets[name] = newHolding()
			_, err := bucket.CreateBucket([]byte(name))
			return err
		}
	}
	for n := 0; n < fillPuts; n++ {
		name := string(filler(random, 12)) + "k"
		if held.buckets[name] != nil {
			continue
		}
		value := filler(random, fillBytes)
		held.values[name] = value
		if err := bucket.Put([]byte(name), value); err != nil {
			return err
		}
	}
	return nil
}

// ---- copies

// copied has bbolt compact the file and back it up. Both copies hold the same.
func copied(name, folder string) error {
	db, err := open(name, true)
	if err != nil {
		return err
	}
	held, err := contentOf(db)
	if err != nil {
		return err
	}
	backup := filepath.Join(folder, "backup.db")
	err = db.View(func(tx *bolt.Tx) error { return tx.CopyFile(backup, 0o600) })
	db.Close()
	if err != nil {
		return fmt.Errorf("backed up: %w", err)
	}
	if err := verifyBackup(backup, held); err != nil {
		return fmt.Errorf("backed up: %w", err)
	}
	out := filepath.Join(folder, "compacted.db")
	os.Remove(out)
	if err := compact(name, out, "65536"); err != nil {
		return fmt.Errorf("compacted: %w", err)
	}
	if err := verifyFile(out, held); err != nil {
		return fmt.Errorf("compacted: %w", err)
	}
	return nil
}

// bbolt opens no file of fewer bytes. It makes none of its own files so short, but a backup of a file of three pages of
// 1,024 bytes is.
const leastOpened = 4096

// verifyBackup verifies a backup that bbolt can open.
func verifyBackup(backup string, held *holding) error {
	info, err := os.Stat(backup)
	if err != nil || info.Size() < leastOpened {
		return err
	}
	return verifyFile(backup, held)
}
