// Package storeclient is a client of the object store: sessions of a job with a node, over the node's Unix socket.
//
// A [Session] is one connection; its calls block, and each takes a context. A [Pool] lends sessions to goroutines.
//
//	store, err := storeclient.Connect(ctx, storeclient.Access{Path: "/tmp/store.0", Job: 1, Key: key, Patience: 5 * time.Second})
//	..
//	id, err := store.Put(ctx, []byte("Hello"))
//	..
//	held, err := store.Get(ctx, id)
//	..
//	defer held.Close()
//
// What a server refuses is a [Refusal], for errors.As and errors.Is: errors.Is(err, storeclient.Absent).
package storeclient
