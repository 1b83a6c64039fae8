# Publishes by Bunny, for tools/try_publish.py: port, routing key, how many, bytes of each.
require 'bunny'

port, key, count, size = ARGV
connection = Bunny.new(host: '127.0.0.1', port: port.to_i, heartbeat: 0, automatically_recover: false,
                       continuation_timeout: 60_000)
connection.start
channel = connection.create_channel
channel.confirm_select
count.to_i.times { |i| channel.basic_publish('x' * size.to_i, '', key, message_id: "m#{i}") }
channel.wait_for_confirms
nacks = channel.nacked_set.size
channel.close
connection.close
puts "acks #{count.to_i - nacks} nacks #{nacks}"
