// The program put_get puts an object and gets it back, with STORE_SOCKET, STORE_JOB and STORE_KEY (64 hexadecimal digits) in the
// environment.
package main

import (
	"context"
	"fmt"
	"log"
	"os"
	"strconv"
	"time"

	"storeclient"
)

func main() {
	if err := putAndGet(context.Background()); err != nil {
		log.Fatal(err)
	}
}

func putAndGet(ctx context.Context) error {
	job, err := strconv.ParseUint(os.Getenv("STORE_JOB"), 10, 32)
	if err != nil {
		return fmt.Errorf("STORE_JOB: %w", err)
	}
	key, err := storeclient.ParseKey(os.Getenv("STORE_KEY"))
	if err != nil {
		return fmt.Errorf("STORE_KEY: %w", err)
	}
	access := storeclient.Access{Path: os.Getenv("STORE_SOCKET"), Job: uint32(job), Key: key, Patience: time.Minute}
	store, err := storeclient.Connect(ctx, access)
	if err != nil {
		return err
	}
	defer store.Close()
	id, err := store.Put(ctx, []byte("Hello"))
	if err != nil {
		return err
	}
	held, err := store.Get(ctx, id)
	if err != nil {
		return err
	}
	fmt.Printf("%s\n", held.Bytes())
	if err := held.Release(ctx); err != nil {
		return err
	}
	return store.Delete(ctx, id)
}
