"""What each tool needs and MQTT has no part in: files, messages, exit statuses, tables."""
