open R
