package replay;

import java.net.URI;
import java.net.URISyntaxException;
import javax.tools.SimpleJavaFileObject;

/** A source in memory. Its file need not have the name of its public class. */
final class Text extends SimpleJavaFileObject {
    private final String name;
    private final String text;

    Text(String name, String text) {
        super(place(name), Kind.SOURCE);
        this.name = name;
        this.text = text;
    }

    /** The last part is what a frame of a stack says of its file. */
    private static URI place(String name) {
        try {
            return new URI("memory", null, "/" + Math.abs((long) name.hashCode()) + "/" + name.substring(name.lastIndexOf('/') + 1), null);
        } catch (URISyntaxException odd) {
            return URI.create("memory:///" + Math.abs((long) name.hashCode()) + ".java");
        }
    }

    @Override
    public String getName() {
        return name;
    }

    @Override
    public CharSequence getCharContent(boolean ignoreErrors) {
        return text;
    }

    @Override
    public boolean isNameCompatible(String simpleName, Kind kind) {
        return kind == Kind.SOURCE;
    }
}
