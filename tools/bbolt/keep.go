//go:build ignore

// This file is added to a copy of bbolt's library, for own_tests.py.

package bbolt

import (
	"fmt"
	"os"
	"path/filepath"
	"sync/atomic"
)

var keptFiles int64

// keepFile copies the file of a database that is about to be closed.
func keepFile(path string) {
	folder := os.Getenv("BBOLT_KEPT")
	data, err := os.ReadFile(path)
	if folder == "" || err != nil {
		return
	}
	number := atomic.AddInt64(&keptFiles, 1)
	name := fmt.Sprintf("%d-%06d.db", os.Getpid(), number)
	os.WriteFile(filepath.Join(folder, name), data, 0o600)
}
