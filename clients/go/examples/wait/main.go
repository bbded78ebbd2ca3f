// The program wait has a consumer wait for an object that a producer puts half a second later, by a pool of two sessions, with
// STORE_SOCKET, STORE_JOB and STORE_KEY (64 hexadecimal digits) in the environment.
package main

import (
	"context"
	"fmt"
	"log"
	"os"
	"strconv"
	"time"

	"storeclient"
)

func main() {
	ctx, cancel := context.WithTimeout(context.Background(), time.Minute)
	defer cancel()
	if err := produceAndConsume(ctx); err != nil {
		log.Fatal(err)
	}
}

func produceAndConsume(ctx context.Context) error {
	job, err := strconv.ParseUint(os.Getenv("STORE_JOB"), 10, 32)
	if err != nil {
		return fmt.Errorf("STORE_JOB: %w", err)
	}
	key, err := storeclient.ParseKey(os.Getenv("STORE_KEY"))
	if err != nil {
		return fmt.Errorf("STORE_KEY: %w", err)
	}
	pool, err := storeclient.NewPool(storeclient.Access{Path: os.Getenv("STORE_SOCKET"), Job: uint32(job), Key: key}, 2)
	if err != nil {
		return err
	}
	defer pool.Close()
	consumer, err := pool.Session(ctx)
	if err != nil {
		return err
	}
	defer consumer.Close()
	id, err := consumer.NewID()
	if err != nil {
		return err
	}
	produced := make(chan error, 1)
	go func() { produced <- produce(ctx, pool, id) }()
	held, err := consumer.Wait(ctx, id)
	if err != nil {
		return err
	}
	defer held.Close()
	fmt.Printf("%s\n", held.Bytes())
	if err := <-produced; err != nil {
		return err
	}
	return consumer.Delete(ctx, id)
}

func produce(ctx context.Context, pool *storeclient.Pool, id storeclient.ObjectID) error {
	time.Sleep(500 * time.Millisecond)
	producer, err := pool.Session(ctx)
	if err != nil {
		return err
	}
	defer producer.Close()
	return producer.PutAs(ctx, id, []byte("Hello"))
}
