<?php
// Sends, takes and shows messages by php-amqplib, for tools/try_trips.py: its words are those of trip_pika.py.
require_once 'PhpAmqpLib/autoload.php';

use PhpAmqpLib\Connection\AMQPStreamConnection;
use PhpAmqpLib\Exception\AMQPTimeoutException;
use PhpAmqpLib\Message\AMQPMessage;
use PhpAmqpLib\Wire\AMQPArray;
use PhpAmqpLib\Wire\AMQPDecimal;
use PhpAmqpLib\Wire\AMQPTable;

[, $port, $verb, $queue] = $argv;
$words = array_slice($argv, 4);
$connection = new AMQPStreamConnection(
    '127.0.0.1', (int) $port, 'guest', 'guest', '/', false, 'PLAIN', null, 'en_US', 60, 60, null, false, 0
);
$channel = $connection->channel();

function nanoseconds()
{
    return (int) (microtime(true) * 1e6) . '000';
}

function confirmed($messages)
{
    global $channel, $queue;
    $tell = fn($word) => function ($message) use ($word) {
        echo $word, ' ', $message->getDeliveryTag() - 1, ' ', nanoseconds(), "\n";
    };
    $channel->set_ack_handler($tell('ack'));
    $channel->set_nack_handler($tell('nack'));
    $channel->confirm_select();
    foreach ($messages as $i => $message) {
        $channel->basic_publish($message, '', $queue);
        if ($i % 100 == 99) {
            $channel->wait_for_pending_acks(60);
        }
    }
    $channel->wait_for_pending_acks(60);
}

function numbered($i, $body)
{
    $inner = new AMQPTable(['number' => $i]);
    return new AMQPMessage($body, [
        'content_type' => 'text/plain', 'content_encoding' => 'utf-8', 'delivery_mode' => 1 + $i % 2, 'priority' => 1 + $i % 9,
        'correlation_id' => "c$i", 'reply_to' => 'answers', 'expiration' => (string) (86400000 + $i), 'message_id' => "m$i",
        'timestamp' => 1700000000 + $i, 'type' => "t$i", 'user_id' => 'guest', 'app_id' => 'shop',
        'application_headers' => new AMQPTable(['number' => $i, 'text' => "größe $i", 'even' => $i % 2 == 0, 'inner' => $inner]),
    ]);
}

function send($sizes, $pool)
{
    $sizes = explode(' ', trim(file_get_contents($sizes)));
    $pool = file_get_contents($pool);
    confirmed((function () use ($sizes, $pool) {
        foreach ($sizes as $i => $size) {
            yield $i => numbered($i, substr($pool, $i, (int) $size));
        }
    })());
}

// Takes what comes until all is done, or nothing comes for half a minute.
function drain($done)
{
    global $channel;
    while (!$done()) {
        try {
            $channel->wait(null, false, 30);
        } catch (AMQPTimeoutException $error) {
            echo "quiet\n";
            return;
        }
    }
}

function tell($message)
{
    $name = $message->get('message_id');
    echo (int) $message->isRedelivered(), ' ', $name, ' ', sha1($message->body), "\n";
    return $name;
}

function get($count)
{
    global $channel, $queue;
    for ($i = 0; $i < $count; $i++) {
        $message = $channel->basic_get($queue);
        if (!$message) {
            echo "empty\n";
            break;
        }
        tell($message);
        $message->ack();
    }
}

function take($how, $count, $prefetch)
{
    global $channel, $queue;
    $seen = [];
    $settled = 0;
    $channel->basic_qos(0, $prefetch, false);
    $act = function ($message) use (&$seen, &$settled, $how, $count) {
        $name = tell($message);
        $again = isset($seen[$name]);
        $seen[$name] = true;
        $settled += $how != 'requeue' || $again;
        if ($how == 'ack' || $how == 'requeue' && $again) {
            $message->ack();
        } elseif ($how == 'multiple' && ($settled % 10 == 0 || $settled == $count)) {
            $message->ack(true);
        } elseif ($how == 'reject') {
            $message->reject(false);
        } elseif ($how == 'requeue') {
            $message->nack(true);
        }
    };
    $tag = $channel->basic_consume($queue, '', false, $how == 'none', false, false, $act);
    drain(function () use (&$settled, $count) { return $settled == $count; });
    $channel->basic_cancel($tag);
}

function rich()
{
    $headers = new AMQPTable();
    $headers->set('yes', true);
    $headers->set('no', false);
    $headers->set('int8', -5, AMQPTable::T_INT_SHORTSHORT);
    $headers->set('int', -70000, AMQPTable::T_INT_LONG);
    $headers->set('long', -(2 ** 40), AMQPTable::T_INT_LONGLONG);
    $headers->set('text', 'größe €');
    $headers->set('time', 1709208000, AMQPTable::T_TIMESTAMP);
    $headers->set('nothing', null);
    $headers->set('bytes', "\x00\x80\xFF", AMQPTable::T_BYTES);
    $headers->set('table', new AMQPTable(['a' => 1, 'b' => new AMQPTable(['c' => 'deep'])]));
    $headers->set('list', new AMQPArray([1, 'two', true, null, new AMQPArray([3]), new AMQPTable(['d' => 4])]));
    confirmed([new AMQPMessage('rich', [
        'content_type' => 'text/plain', 'content_encoding' => 'utf-8', 'delivery_mode' => 2, 'priority' => 5,
        'correlation_id' => 'c-17', 'reply_to' => 'answers', 'expiration' => '600000', 'message_id' => 'm-17',
        'timestamp' => 1700000000, 'type' => 'order.new', 'user_id' => 'guest', 'app_id' => 'shop',
        'cluster_id' => 'west', 'application_headers' => $headers,
    ])]);
}

// kinds of headers that some libraries can't read
function rare()
{
    $headers = new AMQPTable();
    $headers->set('byte', 200, AMQPTable::T_INT_SHORTSHORT_U);
    $headers->set('short', -300, AMQPTable::T_INT_SHORT);
    $headers->set('ushort', 60000, AMQPTable::T_INT_SHORT_U);
    $headers->set('uint', 4000000000, AMQPTable::T_INT_LONG_U);
    confirmed([new AMQPMessage('rare', ['application_headers' => $headers])]);
}

function decimal()
{
    $headers = new AMQPTable(['decimal' => new AMQPDecimal(314, 2)]);
    confirmed([new AMQPMessage('decimal', ['application_headers' => $headers])]);
}

// A value with its kind, as the programs of all libraries write it; a collection tells the kinds of what is in it.
function told($value)
{
    if ($value instanceof AMQPTable || $value instanceof AMQPArray) {
        $inner = [];
        foreach ($value as $name => $pair) {
            $inner[$name] = told_as($pair[0], $pair[1]);
        }
        return $value instanceof AMQPTable ? ['table' => (object) $inner] : $inner;
    }
    return $value;
}

function told_as($kind, $value)
{
    if ($kind == AMQPTable::T_BYTES || is_string($value) && !mb_check_encoding($value, 'UTF-8')) {
        return ['bytes' => bin2hex($value)];
    }
    if ($kind == AMQPTable::T_TIMESTAMP) {
        return ['time' => $value];
    }
    if ($value instanceof AMQPDecimal) {
        return ['decimal' => $value->asBCvalue()];
    }
    return is_float($value) ? ['float' => (string) $value] : told($value);
}

function show($count)
{
    global $channel, $queue;
    $taken = 0;
    $act = function ($message) use (&$taken) {
        $said = $message->get_properties();
        $said['headers'] = told($said['application_headers'] ?? null);
        unset($said['application_headers']);
        $said['body'] = $message->body;
        ksort($said);
        echo json_encode($said, JSON_UNESCAPED_UNICODE | JSON_UNESCAPED_SLASHES), "\n";
        $message->ack();
        $taken++;
    };
    $tag = $channel->basic_consume($queue, '', false, false, false, false, $act);
    drain(function () use (&$taken, $count) { return $taken == $count; });
    $channel->basic_cancel($tag);
}

try {
    match ($verb) {
        'send' => send(...$words),
        'take' => take($words[0], (int) $words[1], (int) $words[2]),
        'get' => get((int) $words[0]),
        'rich' => rich(),
        'rare' => rare(),
        'decimal' => decimal(),
        'show' => show((int) $words[0]),
    };
    $channel->close();
    $connection->close();
} catch (Throwable $error) {
    echo 'error ', get_class($error), ' ', $error->getCode(), ' ', $error->getMessage(), "\n";
}
