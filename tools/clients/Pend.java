// Publishes by RabbitMQ's library for Java and tells what becomes of each message, for tools/try_awkward.py: its words are those of pend_pika.py.
import com.rabbitmq.client.AMQP.BasicProperties;
import com.rabbitmq.client.Channel;
import com.rabbitmq.client.Connection;
import com.rabbitmq.client.ConnectionFactory;
import java.time.Instant;
import java.util.TreeSet;

public class Pend {
    static final TreeSet<Long> waits = new TreeSet<>();

    static void tell(String word, long tag, boolean multiple) {
        Instant now = Instant.now();
        synchronized (waits) {
            while (!waits.isEmpty() && (multiple ? waits.first() <= tag : waits.contains(tag))) {
                long number = multiple ? waits.first() : tag;
                waits.remove(number);
                System.out.println(word + " " + number + " " + (now.getEpochSecond() * 1_000_000_000L + now.getNano()));
            }
        }
    }

    static boolean all() {
        synchronized (waits) {
            return waits.isEmpty();
        }
    }

    static void met(Throwable error) {
        System.out.println("met " + error + (error.getCause() == null ? "" : " " + error.getCause()));
        Runtime.getRuntime().halt(1);
    }

    public static void main(String[] words) throws Exception {
        ConnectionFactory factory = new ConnectionFactory();
        factory.setHost("127.0.0.1");
        factory.setPort(Integer.parseInt(words[0]));
        factory.setAutomaticRecoveryEnabled(false);
        factory.setRequestedHeartbeat(0);
        try {
            Connection connection = factory.newConnection();
            Channel channel = connection.createChannel();
            channel.confirmSelect();
            channel.addConfirmListener((tag, multiple) -> tell("ack", tag, multiple), (tag, multiple) -> tell("nack", tag, multiple));
            channel.addReturnListener((code, text, exchange, key, properties, body) ->
                System.out.println("return " + properties.getMessageId().substring(1)));
            byte[] body = "x".repeat(Integer.parseInt(words[3])).getBytes();
            for (long number = 1; number <= Long.parseLong(words[2]); number++) {
                synchronized (waits) {
                    waits.add(number);
                }
                BasicProperties properties = new BasicProperties.Builder().messageId("m" + number).build();
                channel.basicPublish("", words[1], words.length > 5, properties, body);
            }
            long until = System.nanoTime() + (long) (Double.parseDouble(words[4]) * 1e9);
            while (!all() && System.nanoTime() < until && channel.isOpen()) {
                Thread.sleep(10);
            }
            if (!channel.isOpen()) {
                met(channel.getCloseReason());
            }
            long began = System.nanoTime();
            channel.close();
            connection.close();
            System.out.printf("closed %.2f%n", (System.nanoTime() - began) / 1e9);
        } catch (Exception error) {
            met(error);
        }
    }
}
