//! Figures 7 to 13 of document 001 (RFC 9292, section 5), as octets.
//! 7 and 12 here without the empty line that the paper leaves out at their end.

pub const FIGURE_8: &str = "\
    0003474554056874747073000a2f6865\
    6c6c6f2e747874406c0a757365722d61\
    67656e74346375726c2f372e31362e33\
    206c69626375726c2f372e31362e3320\
    4f70656e53534c2f302e392e376c207a\
    6c69622f312e322e3304686f73740f77\
    77772e6578616d706c652e636f6d0f61\
    63636570742d6c616e67756167650665\
    6e2c206d690000\
";

pub const FIGURE_9: &str = "\
    0203474554056874747073000a2f6865\
    6c6c6f2e7478740a757365722d616765\
    6e74346375726c2f372e31362e33206c\
    69626375726c2f372e31362e33204f70\
    656e53534c2f302e392e376c207a6c69\
    622f312e322e3304686f73740f777777\
    2e6578616d706c652e636f6d0f616363\
    6570742d6c616e677561676506656e2c\
    206d6900000000000000000000000000\
";

pub const FIGURE_11: &str = "\
    0340660772756e6e696e670a22736c65\
    657020313522004067046c696e6b233c\
    2f7374796c652e6373733e3b2072656c\
    3d7072656c6f61643b2061733d737479\
    6c65046c696e6b243c2f736372697074\
    2e6a733e3b2072656c3d7072656c6f61\
    643b2061733d7363726970740040c804\
    646174651d4d6f6e2c203237204a756c\
    20323030392031323a32383a35332047\
    4d540673657276657206417061636865\
    0d6c6173742d6d6f6469666965641d57\
    65642c203232204a756c203230303920\
    31393a31353a353620474d5404657461\
    671422333461613338372d642d313536\
    3865623030220d6163636570742d7261\
    6e6765730562797465730e636f6e7465\
    6e742d6c656e67746802353104766172\
    790f4163636570742d456e636f64696e\
    670c636f6e74656e742d747970650a74\
    6578742f706c61696e003348656c6c6f\
    20576f726c6421204d7920636f6e7465\
    6e7420696e636c756465732061207472\
    61696c696e672043524c462e0d0a0000\
";

pub const FIGURE_13: &str = "\
    0140c8001d5468697320636f6e74656e\
    7420636f6e7461696e732043524c462e\
    0d0a0d07747261696c65720474657874\
";

pub const FIGURE_7: &str = "\
    GET /hello.txt HTTP/1.1\r\n\
    User-Agent: curl/7.16.3 libcurl/7.16.3 OpenSSL/0.9.7l zlib/1.2.3\r\n\
    Host: www.example.com\r\n\
    Accept-Language: en, mi\r\n\
";

pub const FIGURE_10: &str = "\
    HTTP/1.1 102 Processing\r\n\
    Running: \"sleep 15\"\r\n\
    \r\n\
    HTTP/1.1 103 Early Hints\r\n\
    Link: </style.css>; rel=preload; as=style\r\n\
    Link: </script.js>; rel=preload; as=script\r\n\
    \r\n\
    HTTP/1.1 200 OK\r\n\
    Date: Mon, 27 Jul 2009 12:28:53 GMT\r\n\
    Server: Apache\r\n\
    Last-Modified: Wed, 22 Jul 2009 19:15:56 GMT\r\n\
    ETag: \"34aa387-d-1568eb00\"\r\n\
    Accept-Ranges: bytes\r\n\
    Content-Length: 51\r\n\
    Vary: Accept-Encoding\r\n\
    Content-Type: text/plain\r\n\
    \r\n\
    Hello World! My content includes a trailing CRLF.\r\n\
";

pub const FIGURE_12: &str = "\
    HTTP/1.1 200 OK\r\n\
    Transfer-Encoding: chunked\r\n\
    \r\n\
    4\r\n\
    This\r\n\
    6\r\n\
    \x20conte\r\n\
    13;chunk-extension=foo\r\n\
    nt contains CRLF.\r\n\
    \r\n\
    0\r\n\
    Trailer: text\r\n\
";
