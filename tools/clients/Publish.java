// Publishes by RabbitMQ's library for Java, for tools/try_publish.py: port, routing key, how many, bytes of each.
import com.rabbitmq.client.AMQP;
import com.rabbitmq.client.Channel;
import com.rabbitmq.client.Connection;
import com.rabbitmq.client.ConnectionFactory;
import java.util.Arrays;
import java.util.concurrent.atomic.AtomicInteger;
import java.util.concurrent.atomic.AtomicLong;

public class Publish {
    public static void main(String[] words) throws Exception {
        int count = Integer.parseInt(words[2]);
        byte[] body = new byte[Integer.parseInt(words[3])];
        Arrays.fill(body, (byte) 'x');
        ConnectionFactory factory = new ConnectionFactory();
        factory.setHost("127.0.0.1");
        factory.setPort(Integer.parseInt(words[0]));
        factory.setRequestedHeartbeat(0);
        AtomicInteger nacks = new AtomicInteger();
        AtomicLong last = new AtomicLong();
        try (Connection connection = factory.newConnection()) {
            Channel channel = connection.createChannel();
            channel.confirmSelect();
            // each run goes on behind the last: a confirm with `multiple` is of all since then
            channel.addConfirmListener(
                (tag, multiple) -> last.set(tag),
                (tag, multiple) -> nacks.addAndGet((int) (tag - last.getAndSet(tag))));
            for (int i = 0; i < count; i++) {
                AMQP.BasicProperties properties = new AMQP.BasicProperties.Builder().messageId("m" + i).build();
                channel.basicPublish("", words[1], properties, body);
            }
            channel.waitForConfirms(60000);
            channel.close();
        }
        System.out.printf("acks %d nacks %d%n", count - nacks.get(), nacks.get());
    }
}
