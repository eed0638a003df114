<?php
// What PHP's sysvmsg does with queues: run on the system's own and by `msgq with`, it prints the same.
$key = (int)getenv('XSI_KEY') + 3;
var_dump(msg_queue_exists($key));
$queue = msg_get_queue($key, 0640);
var_dump(msg_queue_exists($key));
var_dump(msg_send($queue, 3, ['a' => 1, 'b' => [1, 2, 3]]));
var_dump(msg_send($queue, 2, 'raw', false));
$it = msg_stat_queue($queue);
printf("%d %d %o %d\n", $it['msg_qnum'], $it['msg_qbytes'], $it['msg_perm.mode'], $it['msg_lspid'] == getmypid());
var_dump(msg_receive($queue, -2, $type, 1024, $body, false, MSG_IPC_NOWAIT, $wrong), $type, $body);
var_dump(msg_receive($queue, 0, $type, 1024, $body, true, 0, $wrong), $type, $body);
var_dump(msg_receive($queue, 0, $type, 1024, $body, true, MSG_IPC_NOWAIT, $wrong), $wrong === MSG_ENOMSG);
var_dump(msg_send($queue, 1, str_repeat('x', 1024), false), msg_send($queue, 1, 'a long message', false));
var_dump(msg_receive($queue, 1, $type, 1024, $body, false), strlen($body));
var_dump(@msg_receive($queue, 1, $type, 4, $body, false, 0, $wrong), $wrong === MSG_EAGAIN, $wrong);
var_dump(msg_receive($queue, 1, $type, 4, $body, false, MSG_NOERROR), $body);
var_dump(msg_set_queue($queue, ['msg_qbytes' => 500, 'msg_perm.mode' => 0600]));
$it = msg_stat_queue($queue);
printf("%d %o\n", $it['msg_qbytes'], $it['msg_perm.mode']);
for ($sent = 0; @msg_send($queue, 1, str_repeat('y', 60), false, false, $wrong); $sent++);
var_dump($sent, $wrong === MSG_EAGAIN);
var_dump(msg_remove_queue($queue), msg_queue_exists($key));
