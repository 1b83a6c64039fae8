// A client by amqp091-go, for tools/try_container.py: it reads commands line by line and answers each in one line.
package main

import (
	"bufio"
	"context"
	"fmt"
	"os"
	"strconv"
	"strings"
	"time"

	amqp "github.com/rabbitmq/amqp091-go"
)

var connection *amqp.Connection
var channels []*amqp.Channel
var closed chan *amqp.Error

func connect(words []string) (string, error) {
	heartbeat, err := strconv.Atoi(words[3])
	if err != nil {
		return "", err
	}
	address := fmt.Sprintf("amqp://guest:%s@127.0.0.1:%s/", words[2], words[0])
	config := amqp.Config{Vhost: words[1], Heartbeat: time.Duration(heartbeat) * time.Second, Locale: "en_US"}
	connection, err = amqp.DialConfig(address, config)
	if err != nil {
		return "", err
	}
	closed = connection.NotifyClose(make(chan *amqp.Error, 1))
	product := connection.Properties["product"]
	return fmt.Sprintf("open: %q, channels to %d, frames to %d, heartbeat %v", product,
		connection.Config.ChannelMax, connection.Config.FrameSize, connection.Config.Heartbeat), nil
}

func openChannel() (string, error) {
	channel, err := connection.Channel()
	if err == nil {
		channels = append(channels, channel)
	}
	return "done", err
}

func closeChannel() (string, error) {
	last := len(channels) - 1
	channel := channels[last]
	channels = channels[:last]
	return "done", channel.Close()
}

func publish(key string) (string, error) {
	channel := channels[len(channels)-1]
	returns := channel.NotifyReturn(make(chan amqp.Return, 1))
	confirms := channel.NotifyPublish(make(chan amqp.Confirmation, 1))
	if err := channel.Confirm(false); err != nil {
		return "", err
	}
	message := amqp.Publishing{Body: []byte("mandatory")}
	if err := channel.PublishWithContext(context.Background(), "", key, true, false, message); err != nil {
		return "", err
	}
	confirm := <-confirms
	select {
	case back := <-returns:
		return fmt.Sprintf("confirm %+v, returned %d %q to %q", confirm, back.ReplyCode, back.ReplyText, back.RoutingKey), nil
	default:
		return fmt.Sprintf("confirm %+v, none returned", confirm), nil
	}
}

func consume(queue string) (string, error) {
	channel := channels[len(channels)-1]
	problems := channel.NotifyClose(make(chan *amqp.Error, 1))
	if _, err := channel.Consume(queue, "", false, false, false, false, nil); err != nil {
		return "", err
	}
	select {
	case problem := <-problems:
		return "", problem
	case <-time.After(5 * time.Second):
		return "done", nil
	}
}

func hold(seconds string) (string, error) {
	count, err := strconv.ParseFloat(seconds, 64)
	if err != nil {
		return "", err
	}
	select {
	case problem := <-closed:
		if problem != nil {
			return "", problem
		}
		return "closed", nil
	case <-time.After(time.Duration(count * float64(time.Second))):
		return "done", nil
	}
}

func do(words []string) (string, error) {
	switch words[0] {
	case "connect":
		return connect(words[1:])
	case "channel":
		return openChannel()
	case "close-channel":
		return closeChannel()
	case "publish":
		return publish(words[1])
	case "consume":
		return consume(words[1])
	case "hold":
		return hold(words[1])
	case "close":
		return "done", connection.Close()
	}
	return "", fmt.Errorf("no such command")
}

func main() {
	lines := bufio.NewScanner(os.Stdin)
	for lines.Scan() {
		said, err := do(strings.Split(lines.Text(), " "))
		if err != nil {
			said = "error " + strings.ReplaceAll(err.Error(), "\n", " ")
		}
		fmt.Println(said)
	}
}
