"""The words of mosquitto.conf, as conf.c of mosquitto 2.0 has them (mosquitto.conf(5))."""

# Of a listener where per_listener_settings is true, else of all of them.
SECURITY = frozenset({
    "acl_file", "allow_anonymous", "allow_zero_length_clientid", "auth_plugin", "auto_id_prefix",
    "password_file", "plugin", "psk_file"})
LISTENER = frozenset({
    "bind_interface", "cafile", "capath", "certfile", "ciphers", "ciphers_tls1.3", "crlfile",
    "dhparamfile", "http_dir", "keyfile", "max_connections", "max_qos", "max_topic_alias",
    "mount_point", "protocol", "psk_hint", "require_certificate", "socket_domain", "tls_engine",
    "tls_engine_kpass_sha1", "tls_keyform", "tls_version", "use_identity_as_username",
    "use_subject_as_username", "use_username_as_clientid"})
# Of the `connection` above it.
BRIDGE = frozenset({
    "address", "addresses", "bridge_alpn", "bridge_attempt_unsubscribe", "bridge_bind_address",
    "bridge_cafile", "bridge_capath", "bridge_certfile", "bridge_identity", "bridge_insecure",
    "bridge_keyfile", "bridge_max_packet_size", "bridge_outgoing_retain",
    "bridge_protocol_version", "bridge_psk", "bridge_require_ocsp", "bridge_tls_version",
    "cleansession", "clientid", "idle_timeout", "keepalive_interval", "local_cleansession",
    "local_clientid", "local_password", "local_username", "notification_topic", "notifications",
    "notifications_local_only", "password", "remote_clientid", "remote_password",
    "remote_username", "restart_timeout", "round_robin", "start_type", "threshold", "topic",
    "try_private", "username"})
GLOBAL = frozenset({
    "allow_duplicate_messages", "auth_plugin_deny_special_chars", "autosave_interval",
    "autosave_on_changes", "bind_address", "check_retain_source", "clientid_prefixes",
    "connection_messages", "ffdc_output", "log_dest", "log_facility", "log_timestamp",
    "log_timestamp_format", "log_type", "max_inflight_bytes", "max_inflight_messages",
    "max_keepalive", "max_log_entries", "max_packet_size", "max_queued_bytes",
    "max_queued_messages", "memory_limit", "message_size_limit", "per_listener_settings",
    "persistence", "persistence_file", "persistence_location", "persistent_client_expiration",
    "pid_file", "port", "queue_qos0_messages", "retain_available", "retained_persistence",
    "retry_interval", "set_tcp_nodelay", "store_clean_interval", "sys_interval", "trace_level",
    "trace_output", "upgrade_outgoing_qos", "user", "websockets_headers_size",
    "websockets_log_level"})
# What begins so belongs to the plugin above it.
PLUGIN_OPTIONS = ("plugin_opt_", "auth_opt_")
SECTIONS = frozenset({"listener", "connection", "include_dir"})

# The broker doesn't start where one of these stands twice in a section.
ONCE = frozenset({
    "acl_file", "auto_id_prefix", "clientid_prefixes", "log_timestamp_format", "mount_point",
    "password_file", "persistence_location", "pid_file", "psk_file"})
# Of these nothing is kept but that there is one.
SECRET = frozenset({
    "bridge_psk", "local_password", "password", "remote_password", "tls_engine_kpass_sha1"})
# Those that the tools go by, and that are true or false.
FLAGS = frozenset({
    "allow_anonymous", "check_retain_source", "connection_messages", "log_timestamp",
    "per_listener_settings", "persistence", "queue_qos0_messages", "upgrade_outgoing_qos"})
TRUE, FALSE = ("true", "1"), ("false", "0")

# Without any of these the default listener isn't opened beside others (config__parse_args).
NOT_OPENING = frozenset({"acl_file", "allow_anonymous", "auto_id_prefix", "http_dir"})
OPENING = frozenset({"bind_address", "port"})

ALL = SECURITY | LISTENER | BRIDGE | GLOBAL | SECTIONS


def is_word(word: str) -> bool:
    return word in ALL or word.startswith(PLUGIN_OPTIONS)
