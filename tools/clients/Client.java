// Java's HttpClient on a running `nessie serve`: java Client.java BASE. A line for each case, and status 1 where one went wrong.
import java.io.ByteArrayInputStream;
import java.net.URI;
import java.net.http.HttpClient;
import java.net.http.HttpRequest;
import java.net.http.HttpRequest.BodyPublisher;
import java.net.http.HttpRequest.BodyPublishers;
import java.net.http.HttpResponse;
import java.net.http.HttpResponse.BodyHandlers;
import java.time.Duration;
import java.util.ArrayList;
import java.util.List;
import java.util.concurrent.CompletableFuture;

public class Client {
    static String base;
    static boolean failed;

    static void told(String what, Object wants, Object came) {
        boolean same = wants.equals(came);
        failed |= !same;
        System.out.println((same ? "ok " : "WRONG ") + what + ", wants " + wants + ", came " + came);
    }

    static HttpRequest.Builder to(String target) {
        return HttpRequest.newBuilder(URI.create(base + target)).timeout(Duration.ofSeconds(20));
    }

    static String commit(String key) {
        return "{\"commitMeta\":{\"message\":\"java\"},\"operations\":[{\"type\":\"PUT\",\"key\":{\"elements\":[\"" + key
            + "\"]},\"content\":{\"type\":\"ICEBERG_TABLE\",\"metadataLocation\":\"m\"}}]}";
    }

    static HttpRequest posted(String target, BodyPublisher body) {
        return to(target).header("Content-Type", "application/json").POST(body).build();
    }

    static void calls(HttpClient client, String name) throws Exception {
        String target = "/trees/main/history/commit";
        HttpResponse<String> reply = client.send(to("/config").build(), BodyHandlers.ofString());
        told(name + ": a read", 200, reply.statusCode());
        told(name + ": its version", HttpClient.Version.HTTP_1_1, reply.version());
        byte[] body = commit("java-chunked-" + name).getBytes();
        told(name + ": a commit", 200, client.send(posted(target, BodyPublishers.ofString(commit("java-" + name))), BodyHandlers.ofString()).statusCode());
        BodyPublisher chunked = BodyPublishers.ofInputStream(() -> new ByteArrayInputStream(body));
        told(name + ": a chunked commit", 200, client.send(posted(target, chunked), BodyHandlers.ofString()).statusCode());
        told(name + ": what was committed", 200, client.send(to("/trees/main/contents/java-" + name).build(), BodyHandlers.ofString()).statusCode());
        told(name + ": a key that is there", 409, client.send(posted(target, BodyPublishers.ofString(commit("java-" + name))), BodyHandlers.ofString()).statusCode());
        told(name + ": HEAD", 405, client.send(to("/config").method("HEAD", BodyPublishers.noBody()).build(), BodyHandlers.ofString()).statusCode());
        int good = 0;
        for (int number = 0; number < 1500; number++) {
            good += client.send(to("/trees/main").build(), BodyHandlers.ofString()).statusCode() == 200 ? 1 : 0;
        }
        told(name + ": 1,500 reads one after another", 1500, good);
        List<CompletableFuture<HttpResponse<String>>> together = new ArrayList<>();
        for (int number = 0; number < 6; number++) {
            together.add(client.sendAsync(to("/trees").build(), BodyHandlers.ofString()));
        }
        good = 0;
        for (CompletableFuture<HttpResponse<String>> one : together) {
            good += one.get().statusCode() == 200 ? 1 : 0;
        }
        told(name + ": 6 reads at once", 6, good);
    }

    // The client waits for an interim reply, and the server sends none: the client's own limit ends it.
    static void expecting(HttpClient client) throws Exception {
        HttpRequest request = to("/trees/main/history/commit").timeout(Duration.ofSeconds(5)).expectContinue(true)
            .POST(BodyPublishers.ofString(commit("java-expect"))).build();
        String came;
        try {
            came = "status " + client.send(request, BodyHandlers.ofString()).statusCode();
        } catch (java.net.http.HttpTimeoutException error) {
            came = "its own time limit";
        }
        told("expectContinue, which waits for an interim reply that doesn't come", "its own time limit", came);
    }

    public static void main(String[] words) throws Exception {
        base = words[0];
        calls(HttpClient.newBuilder().version(HttpClient.Version.HTTP_1_1).build(), "http11");
        calls(HttpClient.newHttpClient(), "default");
        expecting(HttpClient.newBuilder().version(HttpClient.Version.HTTP_1_1).build());
        System.exit(failed ? 1 : 0);
    }
}
