// Go's net/http on a running `nessie serve`: go run client.go BASE. A line for each case, and status 1 where one went wrong.
package main

import (
	"fmt"
	"io"
	"net/http"
	"net/http/httptrace"
	"os"
	"strings"
	"sync"
	"sync/atomic"
	"time"
)

var base = os.Args[1]
var failed = false

func told(what string, wants, came any) {
	word := "ok"
	if wants != came {
		word, failed = "WRONG", true
	}
	fmt.Printf("%s %s, wants %v, came %v\n", word, what, wants, came)
}

func commit(key string) string {
	return `{"commitMeta":{"message":"go"},"operations":[{"type":"PUT","key":{"elements":["` + key + `"]},"content":{"type":"ICEBERG_TABLE","metadataLocation":"m"}}]}`
}

// Sends a request, reads the whole reply, and gives its status; 0 where none came.
func send(client *http.Client, method, target string, body io.Reader, change func(*http.Request)) int {
	request, err := http.NewRequest(method, base+target, body)
	if err != nil {
		return 0
	}
	if change != nil {
		change(request)
	}
	reply, err := client.Do(request)
	if err != nil {
		fmt.Fprintln(os.Stderr, err)
		return 0
	}
	defer reply.Body.Close()
	io.Copy(io.Discard, reply.Body)
	return reply.StatusCode
}

// Hides the length of what it reads, so that it is sent in chunks.
type unsized struct{ io.Reader }

func main() {
	client := &http.Client{Timeout: 20 * time.Second}
	opened := 0
	counting := func(request *http.Request) {
		trace := &httptrace.ClientTrace{GotConn: func(info httptrace.GotConnInfo) {
			if !info.Reused {
				opened++
			}
		}}
		*request = *request.WithContext(httptrace.WithClientTrace(request.Context(), trace))
	}
	good := 0
	for number := 0; number < 1500; number++ {
		if send(client, "GET", "/trees/main", nil, counting) == 200 {
			good++
		}
	}
	told("1,500 reads one after another", 1500, good)
	told("connections for these", 2, opened)
	target := "/trees/main/history/commit"
	told("a commit", 200, send(client, "POST", target, strings.NewReader(commit("go")), nil))
	told("a chunked commit", 200, send(client, "POST", target, unsized{strings.NewReader(commit("go-chunked"))}, nil))
	told("a key that is there", 409, send(client, "POST", target, strings.NewReader(commit("go")), nil))
	told("HEAD", 405, send(client, "HEAD", "/config", nil, nil))
	told("Expect: 100-continue, sent on after a second", 200, send(client, "POST", target, strings.NewReader(commit("go-expect")), func(request *http.Request) {
		request.Header.Set("Expect", "100-continue")
	}))
	var together atomic.Int64
	var all sync.WaitGroup
	for number := 0; number < 100; number++ {
		all.Add(1)
		go func() {
			defer all.Done()
			if send(client, "GET", "/trees", nil, nil) == 200 {
				together.Add(1)
			}
		}()
	}
	all.Wait()
	told("100 reads at once", int64(100), together.Load())
	if failed {
		os.Exit(1)
	}
}
