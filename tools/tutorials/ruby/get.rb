require 'bunny'

connection = Bunny.new(automatically_recover: false)
connection.start

channel = connection.create_channel
queue = channel.queue('hello')

delivery_info, _properties, payload = queue.pop(manual_ack: true)
if delivery_info
  puts "Got #{payload}"
  channel.ack(delivery_info.delivery_tag)
else
  puts 'No message returned'
end

connection.close
