<?php
// A client by php-amqplib, for tools/try_container.py: it reads commands line by line and answers each in one line.
require_once 'PhpAmqpLib/autoload.php';

use PhpAmqpLib\Connection\AMQPStreamConnection;
use PhpAmqpLib\Exception\AMQPTimeoutException;
use PhpAmqpLib\Message\AMQPMessage;

$connection = null;
$channels = [];

function connect($words)
{
    global $connection;
    [$port, $vhost, $password, $heartbeat] = $words;
    $connection = new AMQPStreamConnection(
        '127.0.0.1', (int) $port, 'guest', $password, $vhost, false, 'PLAIN', null, 'en_US', 20, 20, null, false, (int) $heartbeat
    );
    $properties = $connection->getServerProperties();
    return sprintf("open: '%s', heartbeat %d", $properties['product'][1], $connection->getHeartbeat());
}

function publish($key)
{
    global $channels;
    $channel = end($channels);
    $told = [];
    $channel->set_return_listener(function ($code, $text) use (&$told) { $told[] = "returned $code $text"; });
    $channel->set_ack_handler(function () use (&$told) { $told[] = 'ack'; });
    $channel->set_nack_handler(function () use (&$told) { $told[] = 'nack'; });
    $channel->confirm_select();
    $channel->basic_publish(new AMQPMessage('mandatory'), '', $key, true);
    $channel->wait_for_pending_acks_returns(5);
    return implode(', ', $told);
}

function consume($queue)
{
    global $channels;
    $channel = end($channels);
    $channel->basic_consume($queue);
    $channel->wait(null, false, 5);
    return 'done';
}

function hold($seconds)
{
    global $connection;
    $until = microtime(true) + (float) $seconds;
    while (microtime(true) < $until) {
        try {
            $connection->wait([], false, max(0.1, $until - microtime(true)));
        } catch (AMQPTimeoutException $error) {
            break;
        }
    }
    return 'done';
}

function act($words)
{
    global $connection, $channels;
    switch ($words[0]) {
        case 'connect':
            return connect(array_slice($words, 1));
        case 'channel':
            $channels[] = $connection->channel();
            return 'done';
        case 'close-channel':
            array_pop($channels)->close();
            return 'done';
        case 'publish':
            return publish($words[1]);
        case 'consume':
            return consume($words[1]);
        case 'hold':
            return hold($words[1]);
        case 'close':
            $connection->close();
            return 'done';
    }
    throw new Exception('no such command');
}

while (($line = fgets(STDIN)) !== false) {
    try {
        $said = act(explode(' ', trim($line)));
    } catch (Throwable $error) {
        $said = 'error ' . get_class($error) . ' ' . $error->getCode() . ' ' . str_replace("\n", ' ', $error->getMessage());
    }
    echo $said, "\n";
    fflush(STDOUT);
}
