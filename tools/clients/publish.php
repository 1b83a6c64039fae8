<?php
// Publishes by php-amqplib, for tools/try_publish.py: port, routing key, how many, bytes of each.
require_once 'PhpAmqpLib/autoload.php';

use PhpAmqpLib\Connection\AMQPStreamConnection;
use PhpAmqpLib\Message\AMQPMessage;

[, $port, $key, $count, $size] = $argv;
$connection = new AMQPStreamConnection(
    '127.0.0.1', (int) $port, 'guest', 'guest', '/', false, 'PLAIN', null, 'en_US', 60, 60, null, false, 0
);
$channel = $connection->channel();
$acks = 0;
$nacks = 0;
$channel->set_ack_handler(function () use (&$acks) { $acks++; });
$channel->set_nack_handler(function () use (&$nacks) { $nacks++; });
$channel->confirm_select();
for ($i = 0; $i < (int) $count; $i++) {
    $channel->basic_publish(new AMQPMessage(str_repeat('x', (int) $size), ['message_id' => "m$i"]), '', $key);
}
$channel->wait_for_pending_acks(60);
$channel->close();
$connection->close();
echo "acks $acks nacks $nacks\n";
