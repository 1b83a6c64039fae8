# Publishes by Bunny and tells what becomes of each message, for tools/try_awkward.py: its words are those of pend_pika.py.
require "bunny"
require "logger"

port, key, count, size, wait, *flags = ARGV
$stdout.sync = true
waits, lock, failed = {}, Mutex.new, nil

begin
  connection = Bunny.new(
    host: "127.0.0.1", port: port.to_i, heartbeat: 0, automatically_recover: false, recover_from_connection_close: false,
    continuation_timeout: 60_000, logger: Logger.new(File::NULL), session_error_handler: (handler = Object.new)
  )
  handler.define_singleton_method(:raise) { |error| failed = error }
  connection.start
  channel = connection.create_channel
  channel.on_error { |_, close| failed ||= "#{close.reply_code} #{close.reply_text}" }
  channel.confirm_select(lambda { |tag, multiple, nack|
    lock.synchronize do
      (multiple ? waits.keys.select { |number| number <= tag } : [tag]).each do |number|
        waits.delete(number)
        puts "#{nack ? "nack" : "ack"} #{number} #{Process.clock_gettime(Process::CLOCK_REALTIME, :nanosecond)}"
      end
    end
  })
  channel.default_exchange.on_return { |_, properties, _| puts "return #{properties.message_id[1..]}" }
  (1..count.to_i).each do |number|
    lock.synchronize { waits[number] = true }
    channel.basic_publish("x" * size.to_i, "", key, message_id: "m#{number}", mandatory: flags.include?("mandatory"))
  end
  ends = Time.now + wait.to_f
  sleep(0.01) while !failed && !waits.empty? && Time.now < ends
  if failed
    puts "met #{failed.is_a?(Exception) ? "#{failed.class} #{failed.message}" : failed}"
    exit!(1)
  end
  began = Time.now
  channel.close
  connection.close
  puts format("closed %.2f", Time.now - began)
rescue StandardError => error
  puts "met #{error.class} #{error.message}"
  exit!(1)
end
