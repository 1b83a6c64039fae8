<?php

require_once __DIR__ . '/vendor/autoload.php';
use PhpAmqpLib\Connection\AMQPStreamConnection;

$connection = new AMQPStreamConnection('localhost', 5672, 'guest', 'guest');
$channel = $connection->channel();

$message = $channel->basic_get('hello');
if ($message) {
    echo 'Got ', $message->body, "\n";
    $message->ack();
} else {
    echo "No message returned\n";
}

$channel->close();
$connection->close();
