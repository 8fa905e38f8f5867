/** Checks FlatBuffers against a binary schema. On the module path it needs {@code --enable-native-access=fbcheck}. */
module fbcheck {
    exports fbcheck;
}
