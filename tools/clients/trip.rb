# Sends, takes and shows messages by Bunny, for tools/try_trips.py: its words are those of trip_pika.py.
require "bigdecimal"
require "bunny"
require "digest"
require "json"
require "logger"

PORT, VERB, QUEUE, *WORDS = ARGV

def opened
  connection = Bunny.new(
    host: "127.0.0.1", port: PORT.to_i, heartbeat: 0, automatically_recover: false, recover_from_connection_close: false,
    continuation_timeout: 60_000, logger: Logger.new(File::NULL)
  )
  connection.start
  connection
end

def nanoseconds
  Process.clock_gettime(Process::CLOCK_REALTIME, :nanosecond)
end

# Publishes with confirms; each is told by its number.
def confirmed(channel, messages)
  unanswered, done = {}, Queue.new
  channel.confirm_select(lambda { |tag, multiple, nack|
    now = nanoseconds
    numbers = multiple ? unanswered.keys.select { |number| number <= tag } : [tag]
    numbers.each do |number|
      unanswered.delete(number)
      done << "#{nack ? "nack" : "ack"} #{number - 1} #{now}"
    end
  })
  count = 0
  messages.each do |body, properties|
    unanswered[count += 1] = true
    channel.basic_publish(body, "", QUEUE, properties)
  end
  channel.wait_for_confirms
  count.times { puts done.pop }
end

def numbered(i)
  {
    content_type: "text/plain", content_encoding: "utf-8", delivery_mode: 1 + i % 2, priority: 1 + i % 9, correlation_id: "c#{i}",
    reply_to: "answers", expiration: (86400000 + i).to_s, message_id: "m#{i}", timestamp: 1700000000 + i, type: "t#{i}",
    user_id: "guest", app_id: "shop",
    headers: { "number" => i, "text" => "größe #{i}", "even" => i.even?, "inner" => { "number" => i } }
  }
end

def send_all(channel, sizes, pool)
  pool = File.binread(pool)
  confirmed(channel, File.read(sizes).split.each_with_index.lazy.map { |size, i|
    [pool.byteslice(i, size.to_i), numbered(i)]
  })
end

# Calls the block with what comes until it says that all is done, or nothing comes for half a minute.
def each_of(channel, manual_ack)
  came = Queue.new
  queue = Bunny::Queue.new(channel, QUEUE, no_declare: true)
  consumer = queue.subscribe(manual_ack: manual_ack) { |*delivery| came << delivery }
  loop do
    delivery = nil
    begin
      Timeout.timeout(30) { delivery = came.pop }
    rescue Timeout::Error
      puts "quiet"
      break
    end
    break if yield(*delivery)
  end
  consumer.cancel
end

def get(channel, count)
  count.times do
    info, properties, body = channel.basic_get(QUEUE, manual_ack: true)
    unless info
      puts "empty"
      break
    end
    puts "#{info.redelivered ? 1 : 0} #{properties[:message_id]} #{Digest::SHA1.hexdigest(body)}"
    channel.ack(info.delivery_tag)
  end
end

def take(channel, how, count, prefetch)
  seen, settled = {}, 0
  channel.prefetch(prefetch)
  each_of(channel, how != "none") do |info, properties, body|
    name = properties.message_id
    puts "#{info.redelivered? ? 1 : 0} #{name} #{Digest::SHA1.hexdigest(body)}"
    again = seen[name]
    seen[name] = true
    settled += 1 if how != "requeue" || again
    if how == "ack" || how == "requeue" && again
      channel.ack(info.delivery_tag)
    elsif how == "multiple" && (settled % 10 == 0 || settled == count)
      channel.ack(info.delivery_tag, true)
    elsif how == "reject"
      channel.reject(info.delivery_tag)
    elsif how == "requeue"
      channel.nack(info.delivery_tag, false, true)
    end
    settled == count
  end
end

PROPERTIES = {
  content_type: "text/plain", content_encoding: "utf-8", delivery_mode: 2, priority: 5, correlation_id: "c-17",
  reply_to: "answers", expiration: "600000", message_id: "m-17", timestamp: 1700000000, type: "order.new",
  user_id: "guest", app_id: "shop", cluster_id: "west"
}
HEADERS = {
  "yes" => true, "no" => false, "long" => -(2**40), "double" => -2.25, "text" => "größe €",
  "time" => Time.at(1709208000), "nothing" => nil, "float" => AMQ::Protocol::Float32Bit.new(1.5),
  "table" => { "a" => 1, "b" => { "c" => "deep" } }, "list" => [1, "two", true, nil, [3], { "d" => 4 }]
}

# A value with its kind, as the programs of all libraries write it.
def told(value)
  case value
  when String
    text = value.dup.force_encoding("UTF-8")
    text.valid_encoding? ? text : { bytes: value.unpack1("H*") }
  when Float then { float: value.to_s }
  when Time then { time: value.to_i }
  when BigDecimal then { decimal: value.to_s }
  when Hash then { table: value.to_h { |name, inner| [name.dup.force_encoding("UTF-8"), told(inner)] } }
  when Array then value.map { |inner| told(inner) }
  else value
  end
end

def show(channel, count)
  taken = 0
  each_of(channel, true) do |info, properties, body|
    said = properties.to_hash
    headers = told(said[:headers])
    said = said.to_h { |name, value| [name, value.is_a?(Time) ? value.to_i : value] }
    puts JSON.generate(said.merge(headers: headers, body: body).sort.to_h)
    channel.ack(info.delivery_tag)
    (taken += 1) == count
  end
end

begin
  connection = opened
  channel = connection.create_channel
  case VERB
  when "send" then send_all(channel, *WORDS)
  when "take" then take(channel, WORDS[0], WORDS[1].to_i, WORDS[2].to_i)
  when "get" then get(channel, WORDS[0].to_i)
  when "rich" then confirmed(channel, [["rich", PROPERTIES.merge(headers: HEADERS)]])
  when "decimal" then confirmed(channel, [["decimal", { headers: { "decimal" => BigDecimal("314") } }]])
  when "show" then show(channel, WORDS[0].to_i)
  end
  channel.close
  connection.close
rescue Exception => error
  puts "error #{error.class} #{error.message}"
end
