<?php
// Publishes by php-amqplib and tells what becomes of each message, for tools/try_awkward.py: its words are those of pend_pika.py.
require_once 'PhpAmqpLib/autoload.php';

use PhpAmqpLib\Connection\AMQPStreamConnection;
use PhpAmqpLib\Exception\AMQPTimeoutException;
use PhpAmqpLib\Message\AMQPMessage;

[, $port, $key, $count, $size, $wait] = $argv;
$waits = (int) $count;
$tell = function ($word) use (&$waits) {
    return function ($message) use ($word, &$waits) {
        $waits--;
        echo $word, ' ', $message->getDeliveryTag(), ' ', (int) (microtime(true) * 1e6), "000\n";
    };
};

function wait_once($channel, $seconds)
{
    try {
        $channel->wait(null, false, $seconds);
        return true;
    } catch (AMQPTimeoutException $error) {
        return false;
    }
}

try {
    $connection = new AMQPStreamConnection(
        '127.0.0.1', (int) $port, 'guest', 'guest', '/', false, 'PLAIN', null, 'en_US', 60, 60, null, false, 0
    );
    $channel = $connection->channel();
    $channel->set_ack_handler($tell('ack'));
    $channel->set_nack_handler($tell('nack'));
    $channel->set_return_listener(function ($code, $text, $exchange, $key, $message) {
        echo 'return ', substr($message->get('message_id'), 1), "\n";
    });
    $channel->confirm_select();
    for ($i = 1; $i <= (int) $count; $i++) {
        $message = new AMQPMessage(str_repeat('x', (int) $size), ['message_id' => "m$i"]);
        $channel->basic_publish($message, '', $key, isset($argv[6]));
        wait_once($channel, 0.001);
    }
    $until = microtime(true) + (float) $wait;
    while ($waits > 0 && microtime(true) < $until) {
        wait_once($channel, 0.1);
    }
    $began = microtime(true);
    $channel->close();
    $connection->close();
    printf("closed %.2f\n", microtime(true) - $began);
} catch (Exception $error) {
    echo 'met ', get_class($error), ' ', $error->getCode(), ' ', $error->getMessage(), "\n";
}
