// Bbolt is a program over bbolt's own library, for comparisons with this project's program. It makes
// files, prints what they hold in the same lines as luntsegi, checks them, and writes into them at
// random.
//
//	bbolt make KIND FILE          makes a file: wide, nested, inline, long or churn
//	bbolt check FILE              bbolt's own check: OK, or a line for each error and status 1
//	bbolt info FILE               the page size, as bbolt's own command prints it
//	bbolt buckets FILE            the names of the buckets in the root bucket
//	bbolt keys FILE BUCKET        the keys of a bucket
//	bbolt get FILE BUCKET KEY     a value
//	bbolt pages FILE              a line for each page, as bbolt's own command prints it
//	bbolt list FILE               the lines of luntsegi list
//	bbolt stats FILE              the lines of luntsegi stats that bbolt counts in the same way
//	bbolt compact FILE OUT BYTES  bbolt's own compact, with so many bytes in a transaction
//	bbolt change SEED N FILE      N random transactions; status 3 if bbolt panics
//	bbolt empty ORDER FILE        deletes every key, those of nested buckets too, and every bucket, a transaction each,
//	                              and always the first or the last one that is left; status 3 if bbolt panics
//	bbolt try SEED FILE FOLDER    everything that a file has to bear, on copies in a folder; status 3 if bbolt panics
package main

import (
	"bufio"
	"bytes"
	"encoding/hex"
	"fmt"
	"math/rand"
	"os"
	"strconv"
	"time"

	bolt "go.etcd.io/bbolt"
)

func main() {
	if err := run(os.Args[1:]); err != nil {
		fmt.Fprintln(os.Stderr, "bbolt:", err)
		os.Exit(1)
	}
}

func run(words []string) error {
	if len(words) < 2 {
		return fmt.Errorf("too few words")
	}
	rest := words[1:]
	switch {
	case words[0] == "make" && len(rest) == 2:
		return makeFile(rest[0], rest[1])
	case words[0] == "check" && len(rest) == 1:
		return withView(rest[0], check)
	case words[0] == "list" && len(rest) == 1:
		return withView(rest[0], list)
	case words[0] == "stats" && len(rest) == 1:
		return withView(rest[0], stats)
	case words[0] == "info" && len(rest) == 1:
		return info(rest[0])
	case words[0] == "buckets" && len(rest) == 1:
		return withView(rest[0], printBuckets)
	case words[0] == "keys" && len(rest) == 2:
		return withView(rest[0], func(tx *bolt.Tx) error { return printKeys(tx, rest[1]) })
	case words[0] == "get" && len(rest) == 3:
		return withView(rest[0], func(tx *bolt.Tx) error { return printValue(tx, rest[1], rest[2]) })
	case words[0] == "pages" && len(rest) == 1:
		return pages(rest[0])
	case words[0] == "compact" && len(rest) == 3:
		return compact(rest[0], rest[1], rest[2])
	case words[0] == "change" && len(rest) == 3:
		return changeAll(rest[0], rest[1], rest[2])
	case words[0] == "empty" && len(rest) == 2 && rest[0] == "first":
		return writeAll(rest[1], func(db *bolt.DB) error { return empty(db, (*bolt.Cursor).First) })
	case words[0] == "empty" && len(rest) == 2 && rest[0] == "last":
		return writeAll(rest[1], func(db *bolt.DB) error { return empty(db, (*bolt.Cursor).Last) })
	case words[0] == "try" && len(rest) == 3:
		return orPanic(func() error { return tryAll(rest[0], rest[1], rest[2]) })
	}
	return fmt.Errorf("unknown words")
}

func open(name string, readOnly bool) (*bolt.DB, error) {
	return bolt.Open(name, 0o600, &bolt.Options{
		ReadOnly: readOnly, Timeout: 10 * time.Second, NoSync: true, NoGrowSync: true,
	})
}

func withView(name string, do func(*bolt.Tx) error) error {
	db, err := open(name, true)
	if err != nil {
		return err
	}
	defer db.Close()
	return db.View(do)
}

func check(tx *bolt.Tx) error {
	count := 0
	for err := range tx.Check() {
		fmt.Println(err)
		count++
	}
	if count > 0 {
		return fmt.Errorf("%d errors", count)
	}
	fmt.Println("OK")
	return nil
}

// list prints each path with its value or the sequence of its bucket, a bucket before everything in it.
func list(tx *bolt.Tx) error {
	out := bufio.NewWriterSize(os.Stdout, 1<<16)
	defer out.Flush()
	digits := hex.NewEncoder(out)
	var below func(path []byte, bucket *bolt.Bucket) error
	bucketLine := func(path []byte, bucket *bolt.Bucket) error {
		out.Write(path)
		out.WriteString(" bucket ")
		out.WriteString(strconv.FormatUint(bucket.Sequence(), 10))
		out.WriteByte('\n')
		return below(append(path, '/'), bucket)
	}
	below = func(path []byte, bucket *bolt.Bucket) error {
		return bucket.ForEach(func(key, value []byte) error {
			if value == nil {
				return bucketLine(appendHex(path, key), bucket.Bucket(key))
			}
			out.Write(path)
			digits.Write(key)
			out.WriteString(" = ")
			digits.Write(value)
			return out.WriteByte('\n')
		})
	}
	return tx.ForEach(func(name []byte, bucket *bolt.Bucket) error {
		return bucketLine(appendHex(nil, name), bucket)
	})
}

func appendHex(path, key []byte) []byte {
	whole := make([]byte, len(path)+hex.EncodedLen(len(key)), len(path)+hex.EncodedLen(len(key))+1)
	copy(whole, path)
	hex.Encode(whole[len(path):], key)
	return whole
}

// stats adds up bbolt's figures of the buckets of the root bucket.
func stats(tx *bolt.Tx) error {
	sum := bolt.BucketStats{}
	err := tx.ForEach(func(_ []byte, bucket *bolt.Bucket) error {
		sum.Add(bucket.Stats())
		return nil
	})
	fmt.Printf("keys %d\nbranch pages %d\nbranch overflow %d\nleaf pages %d\nleaf overflow %d\n",
		sum.KeyN, sum.BranchPageN, sum.BranchOverflowN, sum.LeafPageN, sum.LeafOverflowN)
	return err
}

func info(name string) error {
	db, err := open(name, true)
	if err != nil {
		return err
	}
	defer db.Close()
	fmt.Println("Page Size:", db.Info().PageSize)
	return nil
}

func printBuckets(tx *bolt.Tx) error {
	out := bufio.NewWriter(os.Stdout)
	defer out.Flush()
	return tx.ForEach(func(name []byte, _ *bolt.Bucket) error {
		_, err := fmt.Fprintln(out, string(name))
		return err
	})
}

func printKeys(tx *bolt.Tx, bucket string) error {
	out := bufio.NewWriter(os.Stdout)
	defer out.Flush()
	return tx.Bucket([]byte(bucket)).ForEach(func(key, _ []byte) error {
		_, err := fmt.Fprintln(out, string(key))
		return err
	})
}

func printValue(tx *bolt.Tx, bucket, key string) error {
	_, err := fmt.Println(string(tx.Bucket([]byte(bucket)).Get([]byte(key))))
	return err
}

// pages opens the file to write, since only then bbolt reads the freelist at once.
func pages(name string) error {
	db, err := open(name, false)
	if err != nil {
		return err
	}
	defer db.Close()
	out := bufio.NewWriter(os.Stdout)
	defer out.Flush()
	return db.View(func(tx *bolt.Tx) error {
		for id := 0; ; {
			page, err := tx.Page(id)
			if err != nil || page == nil {
				return err
			}
			fmt.Fprintf(out, "%-8d %-10s %-6d %-6d\n", page.ID, page.Type, page.Count, page.OverflowCount)
			id++
			if page.Type != "free" {
				id += page.OverflowCount
			}
		}
	})
}

func compact(name, out, bytes string) error {
	most, err := strconv.ParseInt(bytes, 10, 64)
	if err != nil {
		return err
	}
	from, err := open(name, true)
	if err != nil {
		return err
	}
	defer from.Close()
	to, err := open(out, false)
	if err != nil {
		return err
	}
	defer to.Close()
	return bolt.Compact(to, from, most)
}

// ---- files

// filler returns one value after another of about this length.
func filler(random *rand.Rand, most int) []byte {
	value := make([]byte, random.Intn(most+1))
	random.Read(value)
	return value
}

func key(n int) []byte { return []byte(fmt.Sprintf("key-%08d", n)) }

// fill puts a number of entries into a bucket, with keys and values of about these lengths.
func fill(bucket *bolt.Bucket, random *rand.Rand, count, keyLength, valueLength int) error {
	for n := 0; n < count; n++ {
		name := append(key(n), bytes.Repeat([]byte("k"), keyLength)...)
		if err := bucket.Put(name, filler(random, valueLength)); err != nil {
			return err
		}
	}
	return bucket.SetSequence(uint64(count))
}

func makeFile(kind, name string) error {
	db, err := open(name, false)
	if err != nil {
		return err
	}
	defer db.Close()
	random := rand.New(rand.NewSource(7))
	switch kind {
	case "wide":
		return db.Update(func(tx *bolt.Tx) error { return wide(tx, random) })
	case "nested":
		return db.Update(func(tx *bolt.Tx) error { return nested(tx, random) })
	case "inline":
		return db.Update(func(tx *bolt.Tx) error { return inline(tx, random) })
	case "long":
		return db.Update(func(tx *bolt.Tx) error { return long(tx, random) })
	case "churn":
		return change(db, random, 200)
	}
	return fmt.Errorf("unknown kind of file")
}

func wide(tx *bolt.Tx, random *rand.Rand) error {
	bucket, err := tx.CreateBucket([]byte("wide"))
	if err != nil {
		return err
	}
	return fill(bucket, random, 20000, 0, 60)
}

func nested(tx *bolt.Tx, random *rand.Rand) error {
	bucket, err := tx.CreateBucket([]byte("nested"))
	for depth := 0; err == nil && depth < 40; depth++ {
		if err = fill(bucket, random, 30, depth, 200); err == nil {
			bucket, err = bucket.CreateBucket([]byte("inside"))
		}
	}
	return err
}

func inline(tx *bolt.Tx, random *rand.Rand) error {
	for n := 0; n < 300; n++ {
		bucket, err := tx.CreateBucket(key(n))
		if err != nil {
			return err
		}
		if err := fill(bucket, random, n%7, 0, 40); err != nil {
			return err
		}
	}
	return nil
}

func long(tx *bolt.Tx, random *rand.Rand) error {
	bucket, err := tx.CreateBucket([]byte("long"))
	if err != nil {
		return err
	}
	return fill(bucket, random, 600, 900, 900)
}

// ---- changes

func changeAll(seed, count, name string) error {
	from, err := strconv.ParseInt(seed, 10, 64)
	if err != nil {
		return err
	}
	steps, err := strconv.Atoi(count)
	if err != nil {
		return err
	}
	return writeAll(name, func(db *bolt.DB) error { return change(db, rand.New(rand.NewSource(from)), steps) })
}

// writeAll writes into a file. If bbolt panics, the status is 3.
func writeAll(name string, write func(*bolt.DB) error) error {
	return orPanic(func() error {
		db, err := open(name, false)
		if err != nil {
			return err
		}
		defer db.Close()
		return write(db)
	})
}

// orPanic ends the program with the status 3 if bbolt panics.
func orPanic(do func() error) error {
	defer func() {
		if fault := recover(); fault != nil {
			fmt.Println("panic:", fault)
			os.Exit(3)
		}
	}()
	return do()
}

// empty deletes the next key that is left, again and again: those of nested buckets too, and each bucket when it is empty.
func empty(db *bolt.DB, next move) error {
	for {
		left := false
		err := db.Update(func(tx *bolt.Tx) error {
			name, _ := next(tx.Cursor())
			left = name != nil
			if !left {
				return nil
			}
			return deleteNext(tx, tx.Bucket(name), name, next)
		})
		if err != nil || !left {
			return err
		}
	}
}

// parent is what a bucket is in: the root bucket, or another one.
type parent interface {
	DeleteBucket(name []byte) error
}

// deleteNext deletes the next value in a bucket or, if it is empty, the bucket.
func deleteNext(above parent, bucket *bolt.Bucket, name []byte, next move) error {
	key, value := next(bucket.Cursor())
	switch {
	case key == nil:
		return above.DeleteBucket(name)
	case value == nil:
		return deleteNext(bucket, bucket.Bucket(key), key, next)
	}
	return bucket.Delete(key)
}

// change makes a number of random transactions.
func change(db *bolt.DB, random *rand.Rand, steps int) error {
	for step := 0; step < steps; step++ {
		if err := db.Update(func(tx *bolt.Tx) error { return changeOnce(tx, random) }); err != nil {
			return err
		}
	}
	return nil
}

// buckets are the buckets of the root bucket.
func buckets(tx *bolt.Tx) [][]byte {
	var names [][]byte
	tx.ForEach(func(name []byte, _ *bolt.Bucket) error {
		names = append(names, append([]byte{}, name...))
		return nil
	})
	return names
}

func changeOnce(tx *bolt.Tx, random *rand.Rand) error {
	names := buckets(tx)
	if len(names) == 0 || random.Intn(40) == 0 {
		_, err := tx.CreateBucketIfNotExists(key(random.Intn(50)))
		return err
	}
	name := names[random.Intn(len(names))]
	if len(names) > 1 && random.Intn(200) == 0 {
		return tx.DeleteBucket(name)
	}
	bucket := tx.Bucket(name)
	switch random.Intn(5) {
	case 0:
		return put(bucket, random, 1+random.Intn(60))
	case 1:
		return remove(bucket, random, 1+random.Intn(60), bucketKeys(bucket))
	case 2:
		return removeRange(bucket, random, 1+random.Intn(60), (*bolt.Cursor).First, (*bolt.Cursor).Next)
	case 3:
		return removeRange(bucket, random, 1+random.Intn(200), seekAnywhere(random), (*bolt.Cursor).Next)
	default:
		return removeRange(bucket, random, 1+random.Intn(60), (*bolt.Cursor).Last, (*bolt.Cursor).Prev)
	}
}

func put(bucket *bolt.Bucket, random *rand.Rand, count int) error {
	for n := 0; n < count; n++ {
		name := key(random.Intn(30000))
		if bucket.Bucket(name) != nil {
			continue
		}
		if err := bucket.Put(name, filler(random, 120)); err != nil {
			return err
		}
	}
	return nil
}

// bucketKeys are the keys of the values of a bucket.
func bucketKeys(bucket *bolt.Bucket) [][]byte {
	var keys [][]byte
	bucket.ForEach(func(name, value []byte) error {
		if value != nil {
			keys = append(keys, append([]byte{}, name...))
		}
		return nil
	})
	return keys
}

// remove deletes keys at random.
func remove(bucket *bolt.Bucket, random *rand.Rand, count int, keys [][]byte) error {
	random.Shuffle(len(keys), func(i, j int) { keys[i], keys[j] = keys[j], keys[i] })
	for n := 0; n < count && n < len(keys); n++ {
		if err := bucket.Delete(keys[n]); err != nil {
			return err
		}
	}
	return nil
}

type move func(*bolt.Cursor) ([]byte, []byte)

// seekAnywhere moves to a key at random.
func seekAnywhere(random *rand.Rand) move {
	name := key(random.Intn(30000))
	return func(cursor *bolt.Cursor) ([]byte, []byte) { return cursor.Seek(name) }
}

// removeRange deletes values from one place on, at most so many.
func removeRange(bucket *bolt.Bucket, random *rand.Rand, count int, begin, next move) error {
	var keys [][]byte
	cursor := bucket.Cursor()
	for name, value := begin(cursor); name != nil && len(keys) < count; name, value = next(cursor) {
		if value != nil {
			keys = append(keys, append([]byte{}, name...))
		}
	}
	for _, name := range keys {
		if err := bucket.Delete(name); err != nil {
			return err
		}
	}
	return nil
}
