# A client by Bunny, for tools/try_container.py: it reads commands line by line and answers each in one line.
require "bunny"
require "logger"

$stdout.sync = true
$channels = []

def connect(port, vhost, password, heartbeat)
  $connection = Bunny.new(
    host: "127.0.0.1", port: port.to_i, vhost: vhost, user: "guest", password: password, heartbeat: heartbeat.to_i,
    automatically_recover: false, recover_from_connection_close: false, continuation_timeout: 20_000,
    connection_timeout: 20, logger: Logger.new(File::NULL)
  )
  $connection.start
  properties = $connection.server_properties
  "open: '#{properties["product"]}', channels to #{$connection.channel_max}, frames to #{$connection.frame_max}, " \
    "heartbeat #{$connection.heartbeat}"
end

def publish(key)
  channel, told = $channels.last, []
  channel.confirm_select
  exchange = channel.default_exchange
  exchange.on_return { |info, _, _| told << "returned #{info.reply_code} #{info.reply_text}" }
  exchange.publish("mandatory", routing_key: key, mandatory: true)
  "confirmed #{channel.wait_for_confirms}, nacked #{channel.nacked_set.to_a}, #{told}"
end

def consume(queue)
  Bunny::Queue.new($channels.last, queue, no_declare: true).subscribe { }
  "done"
end

def act(words)
  case words[0]
  when "connect" then return connect(*words[1..])
  when "channel" then $channels << $connection.create_channel
  when "close-channel" then $channels.pop.close
  when "publish" then return publish(words[1])
  when "consume" then return consume(words[1])
  when "hold" then sleep words[1].to_f
  when "close" then $connection.close
  else raise "no such command"
  end
  "done"
end

while (line = $stdin.gets)
  begin
    said = act(line.split)
  rescue Exception => error
    said = "error #{error.class} #{error.message}".tr("\n", " ")
  end
  puts said
end
