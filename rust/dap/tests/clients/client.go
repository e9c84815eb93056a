// A client of the adapter by the types of google/go-dap: each message has to decode, with no unknown field. It goes from a journal's end to
// the cause of its loss and back, and prints what it sees. The words are the adapter, the journal, and the folder of the sources.
package main

import (
	"bufio"
	"bytes"
	"encoding/json"
	"fmt"
	"io"
	"os"
	"os/exec"
	"path/filepath"
	"reflect"

	"github.com/google/go-dap"
)

type o = map[string]interface{}

type client struct {
	in     io.Writer
	out    *bufio.Reader
	seq    int
	events []dap.Message
}

func fail(words ...interface{}) {
	fmt.Println(words...)
	os.Exit(1)
}

// Fields of newer versions of the protocol than go-dap's.
func withoutNewer(raw []byte) []byte {
	var message o
	json.Unmarshal(raw, &message)
	if body, ok := message["body"].(o); ok {
		if variables, ok := body["variables"].([]interface{}); ok {
			for _, variable := range variables {
				delete(variable.(o), "declarationLocationReference")
			}
		}
	}
	raw, _ = json.Marshal(message)
	return raw
}

func (c *client) read() dap.Message {
	raw, err := dap.ReadBaseMessage(c.out)
	if err != nil {
		fail("no message:", err)
	}
	message, err := dap.DecodeProtocolMessage(raw)
	if err != nil {
		fail("it doesn't decode:", err, string(raw))
	}
	decoder := json.NewDecoder(bytes.NewReader(withoutNewer(raw)))
	decoder.DisallowUnknownFields()
	if err := decoder.Decode(reflect.New(reflect.TypeOf(message).Elem()).Interface()); err != nil {
		fail("unknown field:", err, string(raw))
	}
	return message
}

func (c *client) ask(command string, arguments o) dap.Message {
	c.seq++
	body, _ := json.Marshal(o{"seq": c.seq, "type": "request", "command": command, "arguments": arguments})
	dap.WriteBaseMessage(c.in, body)
	for {
		message := c.read()
		if response, ok := message.(dap.ResponseMessage); ok && response.GetResponse().RequestSeq == c.seq {
			if !response.GetResponse().Success {
				fail(command, "is refused:", response.GetResponse().Message)
			}
			return message
		}
		c.events = append(c.events, message)
	}
}

// Sends a request, waits until it has stopped, and prints where.
func (c *client) move(command string, arguments o) int {
	c.ask(command, arguments)
	for {
		for len(c.events) > 0 {
			event := c.events[0]
			c.events = c.events[1:]
			if stop, ok := event.(*dap.StoppedEvent); ok {
				frame := c.frames(stop.Body.ThreadId)[0]
				fmt.Printf("%s: %s, thread %d, %s:%d, %s\n", command, stop.Body.Reason, stop.Body.ThreadId, frame.Source.Name, frame.Line, frame.Name)
				return stop.Body.ThreadId
			}
		}
		c.events = append(c.events, c.read())
	}
}

func (c *client) frames(thread int) []dap.StackFrame {
	return c.ask("stackTrace", o{"threadId": thread, "startFrame": 0, "levels": 20}).(*dap.StackTraceResponse).Body.StackFrames
}

func (c *client) variables(reference int, indent string) {
	for _, variable := range c.ask("variables", o{"variablesReference": reference}).(*dap.VariablesResponse).Body.Variables {
		fmt.Printf("%s%s: %s\n", indent, variable.Name, variable.Value)
		if variable.VariablesReference > 0 {
			c.variables(variable.VariablesReference, indent+"  ")
		}
	}
}

func (c *client) look(thread int) {
	for _, scope := range c.ask("scopes", o{"frameId": c.frames(thread)[0].Id}).(*dap.ScopesResponse).Body.Scopes {
		fmt.Println(scope.Name)
		if !scope.Expensive {
			c.variables(scope.VariablesReference, "  ")
		}
	}
}

func main() {
	adapter := exec.Command(os.Args[1])
	adapter.Stderr = os.Stderr
	in, _ := adapter.StdinPipe()
	out, _ := adapter.StdoutPipe()
	if err := adapter.Start(); err != nil {
		fail(err)
	}
	c := &client{in: in, out: bufio.NewReader(out)}
	initialized := c.ask("initialize", o{"adapterID": "yovanelum", "linesStartAt1": true, "columnsStartAt1": true}).(*dap.InitializeResponse)
	fmt.Println("supports stepping back:", initialized.Body.SupportsStepBack)
	c.ask("launch", o{"journal": os.Args[2]})
	test := o{"path": filepath.Join(os.Args[3], "tests", "orders.rs")}
	library := o{"path": filepath.Join(os.Args[3], "src", "lib.rs")}
	set := c.ask("setBreakpoints", o{"source": library, "breakpoints": []o{{"line": 4, "condition": "audit.lag > 0"}, {"line": 9}}}).(*dap.SetBreakpointsResponse)
	for _, breakpoint := range set.Body.Breakpoints {
		fmt.Println("breakpoint", breakpoint.Verified, breakpoint.Line, breakpoint.Message)
	}
	c.ask("setFunctionBreakpoints", o{"breakpoints": []o{}})
	c.ask("setExceptionBreakpoints", o{"filters": []string{"lagged"}})
	thread := c.move("configurationDone", o{})
	for _, thread := range c.ask("threads", o{}).(*dap.ThreadsResponse).Body.Threads {
		fmt.Println("thread", thread.Id, thread.Name)
	}
	c.look(thread)
	thread = c.move("continue", o{"threadId": thread})
	info := c.ask("exceptionInfo", o{"threadId": thread}).(*dap.ExceptionInfoResponse)
	fmt.Println(info.Body.ExceptionId+":", info.Body.Description)
	thread = c.move("reverseContinue", o{"threadId": thread})
	thread = c.move("stepBack", o{"threadId": thread})
	thread = c.move("next", o{"threadId": thread})
	thread = c.move("stepIn", o{"threadId": thread})
	targets := c.ask("stepInTargets", o{"frameId": c.frames(thread)[0].Id}).(*dap.StepInTargetsResponse).Body.Targets
	fmt.Println("to:", targets[0].Label)
	thread = c.move("stepOut", o{"threadId": thread})
	lines := c.ask("gotoTargets", o{"source": library, "line": 5}).(*dap.GotoTargetsResponse).Body.Targets
	fmt.Println("at line 5:", len(lines))
	thread = c.move("goto", o{"threadId": thread, "targetId": lines[0].Id})
	found := c.ask("breakpointLocations", o{"source": test, "line": 1, "endLine": 99}).(*dap.BreakpointLocationsResponse)
	fmt.Println("lines with calls:", len(found.Body.Breakpoints))
	data := c.ask("dataBreakpointInfo", o{"name": "audit.lag"}).(*dap.DataBreakpointInfoResponse)
	fmt.Println(data.Body.Description)
	c.ask("setDataBreakpoints", o{"breakpoints": []o{{"dataId": data.Body.DataId}}})
	c.move("continue", o{"threadId": thread})
	fmt.Println(c.ask("evaluate", o{"expression": "rback unread audit 2", "context": "repl"}).(*dap.EvaluateResponse).Body.Result)
	fmt.Println(c.ask("evaluate", o{"expression": "audit.unread", "context": "watch"}).(*dap.EvaluateResponse).Body.Result)
	c.ask("completions", o{"text": "au", "column": 3})
	fmt.Println("sources:", len(c.ask("loadedSources", o{}).(*dap.LoadedSourcesResponse).Body.Sources))
	c.ask("disconnect", o{})
	if err := adapter.Wait(); err != nil {
		fail(err)
	}
}
