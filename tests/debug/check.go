// Decodes each message of a log of the debug adapter by go-dap, unknown fields refused, and prints their count.
package main
import ("bufio"; "bytes"; "encoding/json"; "fmt"; "os"; "reflect"; "github.com/google/go-dap")
func main() {
	lines := bufio.NewScanner(os.Stdin)
	lines.Buffer(make([]byte, 1<<20), 1<<26)
	count := 0
	for lines.Scan() {
		line := lines.Bytes()
		if line[0] != '<' { continue }
		count++
		message, err := dap.DecodeProtocolMessage(line[2:])
		if err == nil {
			strict := json.NewDecoder(bytes.NewReader(line[2:]))
			strict.DisallowUnknownFields()
			err = strict.Decode(reflect.New(reflect.TypeOf(message).Elem()).Interface())
		}
		if err != nil { fmt.Printf("%v in %s\n", err, line) }
	}
	fmt.Println(count)
}
