package replay;

import java.lang.reflect.Field;
import java.util.List;

/** A place of an object that has a value: a field, with the number of its reads, or an element, which has neither. */
record Slot(String key, Field field, int number, List<Choice> choices) {}
