// The program driver is a driver of the client in Go (see ../../README.md).
package main

import (
	"bufio"
	"context"
	"encoding/hex"
	"errors"
	"fmt"
	"log"
	"os"
	"strconv"
	"strings"
	"time"

	"storeclient"
)

// So long a server may be silent: the kit ends what is silent.
const patience = 100 * time.Second

func main() {
	if len(os.Args) != 4 {
		log.Fatal("usage: driver SOCKET JOB KEY")
	}
	key, err := storeclient.ParseKey(os.Args[3])
	if err != nil {
		log.Fatal(err)
	}
	access := storeclient.Access{Path: os.Args[1], Job: uint32(number(os.Args[2])), Key: key, Patience: patience}
	store, err := storeclient.Connect(context.Background(), access)
	fmt.Println(told("ok", err))
	if err != nil {
		return
	}
	defer store.Close()
	lines := bufio.NewScanner(os.Stdin)
	lines.Buffer(nil, 64<<20)
	for lines.Scan() {
		fmt.Println(told(do(store, strings.Fields(lines.Text()))))
	}
	if err := lines.Err(); err != nil {
		log.Fatal(err)
	}
}

// told is what came of an operation, in words.
func told(said string, err error) string {
	var refusal storeclient.Refusal
	var protocol *storeclient.ProtocolError
	var invalid *storeclient.InvalidError
	switch {
	case err == nil:
		return said
	case errors.As(err, &refusal):
		return fmt.Sprintf("refused %d %s", uint8(refusal), refusal.Name())
	case errors.As(err, &protocol):
		return "protocol"
	case errors.As(err, &invalid):
		return "invalid"
	}
	return "lost"
}

func number(text string) uint64 {
	value, err := strconv.ParseUint(text, 10, 32)
	if err != nil {
		log.Fatal(err)
	}
	return value
}

func data(digits string) []byte {
	bytes, err := hex.DecodeString(strings.TrimSuffix(digits, "-"))
	if err != nil {
		log.Fatal(err)
	}
	return bytes
}

func digits(bytes []byte) string {
	if len(bytes) == 0 {
		return "bytes -"
	}
	return "bytes " + hex.EncodeToString(bytes)
}

// do carries out the operation of these words. What can't be read ends the driver.
func do(store *storeclient.Session, words []string) (string, error) {
	ctx := context.Background()
	switch words[0] {
	case "list":
		listing, err := store.List(ctx)
		return list(listing, store.Job()), err
	case "usage":
		used, err := store.Usage(ctx)
		sizes := fmt.Sprintf("%d %d %d %d", used.Window, used.WindowUsed, used.Device, used.DeviceUsed)
		return fmt.Sprintf("usage %s %d %d", sizes, used.Copies, used.Works), err
	case "leave":
		return "ok", store.Leave(ctx)
	case "endtask":
		return "ok", store.EndTask(ctx, task(words[1]))
	}
	id, err := storeclient.ParseID(words[1], store.Job())
	if err != nil {
		log.Fatal(err)
	}
	return onObject(ctx, store, id, words[0], words[2:])
}

func task(text string) storeclient.Task {
	task, err := storeclient.ParseTask(text)
	if err != nil {
		log.Fatal(err)
	}
	return task
}

func onObject(ctx context.Context, store *storeclient.Session, id storeclient.ObjectID, word string, words []string) (string, error) {
	switch word {
	case "create", "createwait", "copy", "copywait":
		return create(ctx, store, id, word, uint32(number(words[0])))
	case "write":
		return "ok", store.Write(ctx, id, uint32(number(words[0])), data(words[1]))
	case "get", "getwait":
		return hold(ctx, store, id, word)
	case "read", "peek":
		return read(ctx, store, id, word, words)
	case "seal":
		return "ok", store.Seal(ctx, id)
	case "release":
		return "ok", store.Release(ctx, id)
	case "delete":
		return "ok", store.Delete(ctx, id)
	case "unpin":
		return "ok", store.Unpin(ctx, id, task(words[0]))
	case "borrow":
		return "ok", store.Borrow(ctx, id, task(words[0]))
	case "giveup":
		return "ok", store.GiveUp(ctx, id, task(words[0]))
	case "grant":
		return "ok", store.Grant(ctx, id, uint32(number(words[0])))
	case "withdraw":
		return "ok", store.Withdraw(ctx, id, uint32(number(words[0])))
	}
	return onWhole(ctx, store, id, word, words)
}

func create(ctx context.Context, store *storeclient.Session, id storeclient.ObjectID, word string, length uint32) (string, error) {
	call, kind := store.Create, storeclient.Primary
	if strings.HasPrefix(word, "copy") {
		kind = storeclient.Secondary
	}
	if strings.HasSuffix(word, "wait") {
		call = store.CreateWait
	}
	placed, err := call(ctx, id, kind, length)
	return fmt.Sprintf("placed %d %d", placed.Offset, placed.Length), err
}

func hold(ctx context.Context, store *storeclient.Session, id storeclient.ObjectID, word string) (string, error) {
	call := store.Hold
	if word == "getwait" {
		call = store.HoldWait
	}
	length, err := call(ctx, id)
	return fmt.Sprintf("got %d", length), err
}

func read(ctx context.Context, store *storeclient.Session, id storeclient.ObjectID, word string, words []string) (string, error) {
	into, call := make([]byte, number(words[1])), store.Read
	if word == "peek" {
		call = store.Peek
	}
	err := call(ctx, id, uint32(number(words[0])), into)
	return digits(into), err
}

func onWhole(ctx context.Context, store *storeclient.Session, id storeclient.ObjectID, word string, words []string) (string, error) {
	switch word {
	case "put":
		return "ok", store.PutAs(ctx, id, data(words[0]))
	case "putwhole":
		return "ok", store.PutWholeAs(ctx, id, data(words[0]))
	case "deletewhole":
		return "ok", store.DeleteWhole(ctx, id)
	case "takewhole":
		bytes, err := store.GetWhole(ctx, id)
		return digits(bytes), err
	case "take":
		return taken(ctx, store.Get, id)
	case "wait":
		limited, cancel := context.WithTimeout(ctx, time.Duration(number(words[0]))*time.Second)
		defer cancel()
		return taken(limited, store.Wait, id)
	}
	log.Fatalf("there is no operation %s", word)
	return "", nil
}

type getter func(context.Context, storeclient.ObjectID) (*storeclient.Held, error)

func taken(ctx context.Context, get getter, id storeclient.ObjectID) (string, error) {
	held, err := get(ctx, id)
	if err != nil {
		return "", err
	}
	return digits(held.Bytes()), held.Release(ctx)
}

func list(listing storeclient.Listing, job uint32) string {
	words := []string{"list"}
	for _, item := range listing.Own {
		words = append(words, fmt.Sprintf("%s:%v:%v:%d", item.ID.Text(job), item.State, item.Kind, item.Length))
	}
	for _, item := range listing.Granted {
		words = append(words, fmt.Sprintf("%s:granted:%d:%d", item.ID.Text(job), item.Length, item.Depth))
	}
	return strings.Join(words, " ")
}
