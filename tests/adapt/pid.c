/* A temperature loop, in floating point as its author tuned it. */
#include <stdint.h>
#include <stdio.h>

typedef struct { float kp, ki, kd, integral, last; } pid_ctrl;

static float pid_step(pid_ctrl *p, float error, float dt)
{
    float derivative = (error - p->last) / dt;
    p->integral += error * dt;
    p->last = error;
    return p->kp * error + p->ki * p->integral + p->kd * derivative;
}

int main(void)
{
    pid_ctrl p = { 2.0f, 0.5f, 0.1f, 0, 0 };
    float t = 20.0f;
    for (int i = 0; i < 50; i++)
        t += pid_step(&p, 60.0f - t, 0.1f) * 0.1f;
    printf("%d\n", (int)(t * 10));
    return 0;
}
